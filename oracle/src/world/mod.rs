//! The states that a script's calls work on, and the calls.
mod alloc;
mod cursor;
mod flash;
mod lent;
mod opening;
mod reader;
pub mod rules;
mod writer;
mod writing;

use crate::alloc::peek::Fields;
use crate::flash::LogFlash;
use crate::page::peek::{crc32, ReaderFields, WriterFields};
use crate::script::{Fault, Words, MAX_LINE, SLOTS};
use std::cell::Cell;
use std::panic::{catch_unwind, AssertUnwindSafe};
use std::sync::Once;

/// Whose answers are printed.
#[derive(Clone, Copy, PartialEq, Eq, Debug)]
pub enum Mode {
    /// The original's, where the rules (docs/RULES.md) let it be asked and do not depart from it.
    Run,
    /// The same, and that of the rules where the original is not asked or departs.
    Rules,
    /// The original's, whatever it is asked and whatever became of its state.
    Raw,
}

/// What a call came to.
pub enum Told {
    /// The original's own answer.
    Rust(String),
    /// The answer of the rules: the original has none, or another.
    Rules(String),
    /// The original panicked.
    Panic,
    /// The original cannot even be asked.
    Unable,
}

pub struct World {
    pub mode: Mode,
    pub flash: LogFlash,
    pub alloc: Fields,
    pub reader: reader::State,
    pub slots: [ReaderFields; SLOTS],
    pub writer: WriterFields,
    pub runs: cursor::Runs,
    pub cursor: cursor::State,
}

impl World {
    pub fn new(mode: Mode) -> Self {
        World {
            mode,
            flash: flash::at_start(),
            alloc: alloc::at_start(),
            reader: reader::at_start(),
            slots: [reader::at_start().fields; SLOTS],
            writer: writing::at_start(),
            runs: cursor::Runs::default(),
            cursor: cursor::State::default(),
        }
    }

    /// The answer to a line, or none where the line is no call.
    pub fn line(&mut self, line: &str) -> Result<Option<String>, Fault> {
        if line.len() > MAX_LINE {
            return Err(format!("longer than {MAX_LINE} bytes"));
        }
        if line.is_empty() || line.starts_with('#') {
            return Ok(None);
        }
        let told = self.call(&mut Words::of(line))?;
        Ok(Some(match (told, self.mode) {
            (Told::Rust(text), _) | (Told::Rules(text), Mode::Rules) => text,
            (Told::Rules(_), _) | (Told::Unable, _) => "unsupported".into(),
            (Told::Panic, _) => "panic".into(),
        }))
    }

    fn call(&mut self, words: &mut Words) -> Result<Told, Fault> {
        match words.word()? {
            "crc" => sum(words),
            "alloc" => self.alloc_call(words),
            "flash" => self.flash_call(words),
            "reader" => self.reader_call(words),
            "slot" => self.slot_call(words),
            "writer" => self.writer_call(words),
            "runs" => self.runs_call(words),
            "cursor" => self.cursor_call(words),
            part => Err(unknown(part)),
        }
    }

    fn raw(&self) -> bool {
        self.mode == Mode::Raw
    }

    /// The raw original has no page number 0xFFFF, and here no type for a higher header of another length.
    fn askable(&mut self, page: u16, h: u64, call: impl FnOnce(&mut Self) -> Told) -> Told {
        if self.raw() && (page == u16::MAX || !rules::header_fine(h)) {
            return Told::Unable;
        }
        call(self)
    }

    /// The refusal before the work (docs/RULES.md, Order of checks). The raw original has none.
    fn refused(&self, no: Option<u8>) -> Option<u8> {
        no.filter(|_| !self.raw())
    }
}

/// The answers to a whole script from the start, one for each call.
pub fn answers(mode: Mode, script: &str) -> Result<Vec<String>, Fault> {
    let mut world = World::new(mode);
    let lines = script.lines().map(|line| world.line(line));
    lines.filter_map(Result::transpose).collect()
}

fn sum(words: &mut Words) -> Result<Told, Fault> {
    let bytes = words.bytes()?;
    words.done()?;
    Ok(Told::Rust(format!("ok {:08x}", crc32(&bytes))))
}

fn ok() -> Told {
    Told::Rust("ok".into())
}

fn unknown(word: &str) -> Fault {
    format!("no such call: {word:.40}")
}

thread_local! {
    static QUIET: Cell<bool> = const { Cell::new(false) };
}

/// Runs a part of the original. None where it panics, and nothing is said about it.
fn caught<T>(work: impl FnOnce() -> T) -> Option<T> {
    static HOOK: Once = Once::new();
    HOOK.call_once(|| {
        let loud = std::panic::take_hook();
        std::panic::set_hook(Box::new(move |about| {
            if !QUIET.get() {
                loud(about);
            }
        }));
    });
    QUIET.set(true);
    let done = catch_unwind(AssertUnwindSafe(work)).ok();
    QUIET.set(false);
    done
}
