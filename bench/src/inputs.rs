//! What both sides are run on: the same on every machine.

pub const PAYLOAD: usize = 4076;
pub const RUNS: usize = 17;
pub const RECORDS: usize = 1000;

/// Numbers that look random (xorshift of 64 bits).
pub struct Numbers(pub u64);

impl Numbers {
    pub fn next(&mut self) -> u64 {
        self.0 ^= self.0 << 13;
        self.0 ^= self.0 >> 7;
        self.0 ^= self.0 << 17;
        self.0
    }

    pub fn below(&mut self, n: u64) -> u64 {
        self.next() % n
    }
}

pub fn payload() -> Vec<u8> {
    let mut numbers = Numbers(0x9E37_79B9_7F4A_7C15);
    (0..PAYLOAD).map(|_| numbers.next() as u8).collect()
}

/// Runs of records (docs/FORMAT.md, Runs): 1,000 rising keys each, of 12 bytes, out of 20,000 that all runs share, so that some keys are in several
/// runs; one record in ten is a deletion; a value has 32 bytes, and starts with a number of its own.
pub fn runs() -> Vec<Vec<u8>> {
    let mut numbers = Numbers(0x2545_F491_4F6C_DD1D);
    (0..RUNS)
        .map(|run| {
            let mut chosen = std::collections::BTreeSet::new();
            while chosen.len() < RECORDS {
                chosen.insert(numbers.below(20_000));
            }
            let mut bytes = Vec::new();
            for (i, key) in chosen.into_iter().enumerate() {
                let deleted = numbers.below(10) == 0;
                let mut value = vec![0; if deleted { 0 } else { 32 }];
                if let Some(start) = value.first_chunk_mut() {
                    *start = ((run * RECORDS + i) as u32).to_le_bytes();
                }
                bytes.extend([0x48, 0x56, deleted.into(), 12]);
                bytes.extend((value.len() as u16).to_le_bytes());
                bytes.extend(format!("sensor{key:06}").bytes());
                bytes.extend(value);
            }
            bytes
        })
        .collect()
}
