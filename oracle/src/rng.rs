//! Numbers from a seed: xorshift of 64 bits, its high half after a multiplication.

pub struct Rng(u64);

impl Rng {
    pub fn new(seed: u64) -> Self {
        // Any seed but one gives a state that is not zero, and that one is moved aside.
        let state = seed.wrapping_mul(0x9E37_79B9_7F4A_7C15) ^ 0xD1B5_4A32_D192_ED03;
        let mut rng = Rng(state.max(1));
        for _ in 0..8 {
            rng.next();
        }
        rng
    }

    pub fn next(&mut self) -> u32 {
        self.0 ^= self.0 >> 12;
        self.0 ^= self.0 << 25;
        self.0 ^= self.0 >> 27;
        (self.0.wrapping_mul(0x2545_F491_4F6C_DD1D) >> 32) as u32
    }

    /// A number below n, which is not 0.
    pub fn below(&mut self, n: usize) -> usize {
        (self.next() as usize) % n
    }

    /// Once in n times.
    pub fn once_in(&mut self, n: usize) -> bool {
        self.below(n) == 0
    }

    pub fn pick<'a, T>(&mut self, from: &'a [T]) -> &'a T {
        &from[self.below(from.len())]
    }

    /// So many bytes: any, or all the same, or erased, or two kinds mixed.
    pub fn bytes(&mut self, length: usize) -> Vec<u8> {
        let one = self.next() as u8;
        match self.below(8) {
            0 => vec![0x00; length],
            1 => vec![0xFF; length],
            2 => vec![one; length],
            3 => (0..length).map(|_| *self.pick(&[0x00, 0xFF, 0xC5, 0x59])).collect(),
            _ => (0..length).map(|_| self.next() as u8).collect(),
        }
    }

    /// The numbers from 0 below n, in any order.
    pub fn shuffled(&mut self, n: usize) -> Vec<usize> {
        let mut all: Vec<usize> = (0..n).collect();
        for i in (1..n).rev() {
            all.swap(i, self.below(i + 1));
        }
        all
    }
}
