//! Episodes on the cursor: up to 17 runs, most of them sorted, merged under all kinds of bounds.
use super::Gen;
use crate::config::FILE_COUNT;
use crate::images::record;
use crate::script::{hex, Kind};

const KINDS: [(&str, Kind); 3] = [
    ("none", Kind::None),
    ("included", Kind::Included),
    ("excluded", Kind::Excluded),
];

impl Gen<'_> {
    pub fn cursor(&mut self) {
        self.make_runs();
        for _ in 0..1 + self.rng.below(3) {
            self.open_cursor();
            self.step_through();
        }
        if self.rng.once_in(4) {
            self.forge_cursor();
            self.step_through();
        }
    }

    fn make_runs(&mut self) {
        self.say("runs new");
        let count = match self.rng.below(6) {
            0 => self.turn % (FILE_COUNT + 1),
            _ => self.rng.below(5),
        };
        let mut end = 0;
        for _ in 0..count {
            let mut run = self.run();
            if self.rng.once_in(12) {
                self.damage_run(&mut run);
            }
            end += run.len();
            for part in run.chunks(4000) {
                self.say(&format!("runs bytes {}", hex(part)));
            }
            self.say(&format!("runs end {end}"));
        }
        if self.rng.once_in(16) {
            self.odd_ends(end);
        }
    }

    /// Bytes that no run has, or ends that are refused.
    fn odd_ends(&mut self, end: usize) {
        match self.rng.below(4) {
            0 => self.say("runs bytes 4856"),
            1 => self.say(&format!("runs end {}", end + 1)),
            2 => self.say(&format!("runs end {}", end / 2)),
            _ => {
                for _ in self.world.runs.ends.len()..FILE_COUNT {
                    self.say(&format!("runs end {end}"));
                }
                self.say(&format!("runs end {end}"))
            }
        };
    }

    /// Changes one byte of a run.
    fn damage_run(&mut self, run: &mut Vec<u8>) {
        if run.is_empty() {
            run.push(0x48);
            return;
        }
        let at = self.rng.below(run.len());
        match self.rng.below(5) {
            0 => run.truncate(at),
            1 => run[at] = self.rng.next() as u8,
            2 => run[at] ^= 1 << self.rng.below(8),
            3 => run.extend(self.rng.bytes(at % 7 + 1)),
            // a header that is cut off, of a later edition
            _ => run.extend(&[0x48, 0x56, 2, 0, 0][..2 + at % 4]),
        }
    }

    /// Records with rising keys, now and then in another order.
    fn run(&mut self) -> Vec<u8> {
        let wanted = *self.rng.pick(&[0, 1, 2, 3, 5, 8, 12]);
        let mut keys: Vec<Vec<u8>> = (0..wanted).map(|_| self.key()).collect();
        if !self.rng.once_in(10) {
            keys.sort();
            keys.dedup();
        }
        keys.iter().flat_map(|key| self.some_record(key)).collect()
    }

    /// Short and of few letters, so that runs have keys in common; now and then as long as it may be.
    fn key(&mut self) -> Vec<u8> {
        let length = match self.rng.below(160) {
            0..=9 => 64,
            10..=19 => 63,
            20 => 65,
            21..=30 => 0,
            _ => self.rng.below(3),
        };
        (0..length).map(|_| *self.rng.pick(b"\x00ab\xff")).collect()
    }

    fn some_record(&mut self, key: &[u8]) -> Vec<u8> {
        let length = match self.rng.below(240) {
            0..=9 => 1024,
            10..=19 => 1023,
            20 => 1025,
            _ => self.rng.below(5),
        };
        let value = self.rng.bytes(length);
        let kind = match self.rng.below(80) {
            0 => *self.rng.pick(&[2, 127, 128, 255]),
            1..=20 => 1,
            _ => 0,
        };
        let value = if kind == 1 && !self.rng.once_in(3) {
            Vec::new()
        } else {
            value
        };
        let mut bytes = record(kind, key, &value);
        if self.rng.once_in(200) {
            let (at, byte) = *self
                .rng
                .pick(&[(0, 0), (1, 0), (3, 65), (3, 255), (4, 1), (5, 4), (5, 5)]);
            bytes[at] = byte;
        }
        bytes
    }

    /// A kind and a key: one that a run may have, the lowest, or a longer one than any.
    fn bound(&mut self) -> String {
        let (word, kind) = *self.rng.pick(&KINDS);
        let key = match self.rng.below(8) {
            0 => vec![0xFF; 70],
            _ if kind == Kind::None && self.rng.once_in(2) => Vec::new(),
            _ => self.key(),
        };
        format!("{word} {}", hex(&key))
    }

    fn open_cursor(&mut self) {
        let bound = if self.rng.once_in(2) {
            "none -".into()
        } else {
            self.bound()
        };
        self.say(&format!("cursor new {bound}"));
        if self.rng.once_in(3) {
            self.say("cursor state");
        }
    }

    /// Calls next to the end, with one upper bound or another each time, and with rooms that are small at times.
    fn step_through(&mut self) {
        let changing = self.rng.once_in(4);
        let mut upper = if self.rng.once_in(2) {
            "none -".into()
        } else {
            self.bound()
        };
        let mut refusals = 0;
        for _ in 0..40 {
            if changing {
                upper = self.bound();
            }
            let (key, value) = match self.rng.below(6) {
                0 => (self.rng.below(4), 1024),
                1 => (64, self.rng.below(6)),
                2 => (self.rng.below(2), self.rng.below(2)),
                _ => (64, 1024),
            };
            let answer = self.say(&format!("cursor next {upper} {key} {value}"));
            refusals += usize::from(answer.starts_with("no"));
            if answer == "end" || refusals == 3 {
                break;
            }
        }
        self.say("cursor state");
    }

    /// Places set by hand: at a record or not, at a run's end, past it.
    fn forge_cursor(&mut self) {
        let runs = self.world.runs.ends.clone();
        let mut words = String::new();
        let mut start = 0;
        for i in 0..FILE_COUNT {
            let end = runs.get(i).copied().unwrap_or(start);
            let length = end.saturating_sub(start) as usize;
            let place = match self.rng.below(30) {
                0 => Some(length + 1),
                1..=9 => Some(0),
                10..=14 => Some(length),
                15 => Some(self.rng.below(length + 1)),
                _ => None,
            };
            let place = place.filter(|_| i < runs.len() || self.rng.once_in(40));
            words.push_str(&place.map_or(" gone".into(), |at| format!(" {at}")));
            start = end;
        }
        self.say(&format!("cursor forge{words}"));
    }
}
