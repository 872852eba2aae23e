//! Random scripts, the same for the same seed.
mod alloc;
mod cursor;
mod pages;
mod reader;
mod writer;

use crate::rng::Rng;
use crate::world::{Mode, World};
use std::io::Write;

/// Lengths at which something changes, for payloads, rooms and sums.
const EDGES: [usize; 22] = [
    0, 1, 2, 3, 4, 5, 7, 8, 9, 15, 16, 17, 63, 64, 65, 4072, 4073, 4074, 4075, 4076, 4077, 4096,
];

#[derive(Clone, Copy, PartialEq, Eq, Debug)]
enum Part {
    Crc,
    Alloc,
    Reader,
    Writer,
    Cursor,
}

/// The parts, and how many of 16 calls each gets where all are asked for.
const PARTS: [(&str, Part, usize); 5] = [
    ("crc", Part::Crc, 1),
    ("alloc", Part::Alloc, 3),
    ("reader", Part::Reader, 4),
    ("writer", Part::Writer, 4),
    ("cursor", Part::Cursor, 4),
];

/// Writes a script of so many calls on the part of this name, or on all. Answers whether there is such a part.
pub fn script(seed: u64, calls: usize, name: &str, out: &mut dyn Write) -> bool {
    let parts = PARTS.iter().filter(|(part, ..)| name == "all" || name == *part);
    let mut progress: Vec<Progress> = parts.map(Progress::of).collect();
    let mut gen = Gen {
        rng: Rng::new(seed),
        world: World::new(Mode::Rules),
        due: calls,
        turn: 0,
        out,
    };
    while gen.due > 0 {
        let Some(next) = progress.iter_mut().min_by_key(|p| p.calls / p.share) else {
            return false;
        };
        next.take(&mut gen);
    }
    true
}

/// How far a part has come.
struct Progress {
    part: Part,
    share: usize,
    calls: usize,
    episodes: usize,
}

impl Progress {
    fn of((_, part, share): &(&str, Part, usize)) -> Self {
        Progress {
            part: *part,
            share: *share,
            calls: 0,
            episodes: 0,
        }
    }

    fn take(&mut self, gen: &mut Gen) {
        let due = gen.due;
        self.episodes += 1;
        gen.turn = self.episodes;
        match self.part {
            Part::Crc => gen.sums(),
            Part::Alloc => gen.allocator(),
            Part::Reader => gen.reader(),
            Part::Writer => gen.writer(),
            Part::Cursor => gen.cursor(),
        }
        self.calls += due - gen.due;
    }
}

/// A script in the making. It runs in a world of its own, so that the next call can be chosen by the state.
struct Gen<'a> {
    rng: Rng,
    world: World,
    /// Calls still to be made.
    due: usize,
    /// The part's episodes so far, this one among them.
    turn: usize,
    out: &'a mut dyn Write,
}

impl Gen<'_> {
    /// Makes a call, if one is due, and answers what it comes to.
    fn say(&mut self, line: &str) -> String {
        if self.due == 0 {
            return "end".into();
        }
        self.due -= 1;
        writeln!(self.out, "{line}").unwrap();
        match self.world.line(line) {
            Ok(Some(answer)) => answer,
            other => panic!("{other:?} for {line:.200}"),
        }
    }

    /// Whether the last answer lets a loop of calls go on.
    fn goes_on(answer: &str) -> bool {
        answer.starts_with("ok ") && answer != "ok -"
    }

    /// A length at an edge, or a small one, or any.
    fn length(&mut self) -> usize {
        match self.rng.below(8) {
            0..=3 => *self.rng.pick(&EDGES),
            4..=6 => self.rng.below(41),
            _ => self.rng.below(4100),
        }
    }

    fn sums(&mut self) {
        for _ in 0..8 {
            let length = self.length();
            let bytes = self.rng.bytes(length);
            self.say(&format!("crc {}", crate::script::hex(&bytes)));
        }
    }
}
