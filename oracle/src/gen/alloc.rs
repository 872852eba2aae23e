//! Episodes on the allocator: one count each, filled up, emptied, or used at random.
use super::Gen;
use crate::script::{hex, spaced};

impl Gen<'_> {
    pub fn allocator(&mut self) {
        for _ in 0..self.rng.below(4) {
            self.odd_allocator();
        }
        // 97 has no factor in common with 256, so every count comes once in 256 turns.
        let count = 1 + (self.turn * 97) % 256;
        let seed = self.seed(count);
        self.say(&format!("alloc reset {count} {seed}"));
        match self.rng.below(4) {
            0 => {
                self.fill_up(count);
                self.empty(count);
                self.say(&format!("alloc try_allocate_each {count}"));
                self.free_all(count);
                self.mixed(count, 10);
            }
            1 => {
                self.mark_some(count);
                self.fill_up(count);
                self.mixed(count, 30);
            }
            _ => self.mixed(count, 60),
        }
    }

    /// Below the count, at it, above it, far above it.
    fn seed(&mut self, count: usize) -> usize {
        match self.rng.below(6) {
            0 => self.rng.below(count),
            1 => count - 1,
            2 => count,
            3 => count + 1 + self.rng.below(300),
            4 => u32::MAX as usize - self.rng.below(3),
            _ => self.rng.next() as usize,
        }
    }

    fn fill_up(&mut self, count: usize) {
        for _ in 0..=count {
            self.say("alloc try_allocate");
        }
        self.say("alloc try_allocate");
        self.say("alloc state");
    }

    fn empty(&mut self, count: usize) {
        for page in self.rng.shuffled(count) {
            self.say(&format!("alloc free {page}"));
        }
        self.say("alloc free_pages");
        self.say("alloc state");
    }

    /// Pages in any order, one of them now and then twice or not there.
    fn free_some(&mut self, count: usize) -> String {
        let some = self.rng.below(1 + count.min(9));
        let mut pages: Vec<usize> = self.rng.shuffled(count).into_iter().take(some).collect();
        match self.rng.below(6) {
            0 => pages.extend(pages.first().copied()),
            1 => {
                let at = self.rng.below(pages.len() + 1);
                pages.insert(at, *self.rng.pick(&[count, 256, 65534, 65535]));
            }
            2 => {
                pages.extend(pages.first().copied());
                pages.push(count);
            }
            _ => {}
        }
        self.say(&format!("alloc free_each{}", spaced(&pages)))
    }

    fn free_all(&mut self, count: usize) {
        let pages = self.rng.shuffled(count);
        self.say(&format!("alloc free_each{}", spaced(&pages)));
        self.say("alloc state");
    }

    fn mark_some(&mut self, count: usize) {
        for page in self.rng.shuffled(count).into_iter().take(count / 2) {
            self.say(&format!("alloc mark_used {page}"));
        }
    }

    fn mixed(&mut self, count: usize, calls: usize) {
        for _ in 0..calls {
            let page = match self.rng.below(40) {
                0 => *self.rng.pick(&[count, count + 1, 256, 257, 65534, 65535]),
                _ => self.rng.below(count),
            };
            let wanted = *self.rng.pick(&[0, 1, count, 255, 256, 257, 1 << 40]);
            match self.rng.below(18) {
                16 => {
                    let places = *self.rng.pick(&[0, 1, 2, 8, count, 256]);
                    self.say(&format!("alloc try_allocate_each {places}"))
                }
                17 => self.free_some(count),
                0..=4 => self.say("alloc try_allocate"),
                5..=7 => self.say(&format!("alloc free {page}")),
                8..=9 => self.say(&format!("alloc mark_used {page}")),
                10 => self.say(&format!("alloc is_used {page}")),
                11 => self.say("alloc used_pages"),
                12 => self.say("alloc free_pages"),
                13 => self.say("alloc page_count"),
                14 => self.say("alloc state"),
                _ => self.say(&format!("alloc margin {wanted}")),
            };
        }
    }

    /// A new one, a refused reset, or a state set by hand, in range or not.
    fn odd_allocator(&mut self) {
        match self.rng.below(6) {
            0 => self.say("alloc new"),
            1..=2 => {
                let count = *self.rng.pick(&[0u64, 257, 65536, u64::MAX]);
                self.say(&format!("alloc reset {count} 3"))
            }
            _ => self.forge_allocator(),
        };
        for call in [
            "try_allocate",
            "try_allocate_each 3",
            "free_each",
            "free 0",
            "margin 5",
            "used_pages",
            "mark_used 1",
            "state",
        ] {
            self.say(&format!("alloc {call}"));
        }
    }

    fn forge_allocator(&mut self) -> String {
        let count = *self.rng.pick(&[0, 1, 7, 8, 9, 255, 256, 257, 300]);
        let mut marks = [0u8; 32];
        for page in 0..count.min(256) {
            marks[page / 8] |= u8::from(self.rng.once_in(2)) << (page % 8);
        }
        if self.rng.once_in(4) {
            marks[31 - self.rng.below(32) / 4] ^= 1 << self.rng.below(8);
        }
        let marked: u32 = marks.iter().map(|m| m.count_ones()).sum();
        let used = (marked + *self.rng.pick(&[0, 1, 1, 1, 1, 1, 1, 2])).saturating_sub(1);
        let next = match self.rng.below(6) {
            0 => count,
            _ => self.rng.below(count.max(1)),
        };
        self.say(&format!("alloc forge {count} {next} {used} {}", hex(&marks)))
    }
}
