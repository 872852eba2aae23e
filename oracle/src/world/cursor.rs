//! Calls on the runs and on the cursor over them.
use super::lent::Lent;
use super::rules::{first, places_fine, runs_fine};
use super::{caught, ok, unknown, Told, World};
use crate::block_on;
use crate::config::FILE_COUNT;
use crate::cursor::peek::{self, Places};
use crate::errors::CursorError;
use crate::flash::Fault as FlashFault;
use crate::script::{hex, Fault, Kind, Words, MAX_ENDS, MAX_ROOM, MAX_RUNS};
use std::ops::Bound;

/// The lent buffer and the list of run ends.
#[derive(Clone, Default)]
pub struct Runs {
    pub bytes: Vec<u8>,
    pub ends: Vec<u64>,
}

/// A cursor's places. There is none of the original's before the first opening and after a refused one.
#[derive(Clone, Default)]
pub struct State {
    pub places: [Option<u64>; FILE_COUNT],
    pub there: bool,
}

/// What a lent buffer is filled with before a call, so that it shows where a call wrote.
const UNTOUCHED: u8 = 0xAA;

impl World {
    pub(super) fn runs_call(&mut self, words: &mut Words) -> Result<Told, Fault> {
        match words.word()? {
            "new" => self.runs = Runs::default(),
            "bytes" => self.runs.bytes.extend(words.bytes()?),
            "end" => self.runs.ends.push(words.number()?),
            "poke" => {
                let (at, bytes) = (words.size_to(MAX_RUNS)?, words.bytes()?);
                let part = self.runs.bytes.get_mut(at..at + bytes.len());
                part.ok_or("past the runs")?.copy_from_slice(&bytes);
            }
            call => return Err(unknown(call)),
        }
        words.done()?;
        if self.runs.bytes.len() > MAX_RUNS || self.runs.ends.len() > MAX_ENDS {
            return Err("too much for the runs".into());
        }
        Ok(ok())
    }

    pub(super) fn cursor_call(&mut self, words: &mut Words) -> Result<Told, Fault> {
        let told = match words.word()? {
            "new" => {
                let (kind, key) = words.bound()?;
                self.open_cursor(kind, &key)
            }
            "next" => {
                let (kind, key) = words.bound()?;
                self.next(kind, &key, [words.size_to(MAX_ROOM)?, words.size_to(MAX_ROOM)?])
            }
            "forge" => {
                self.cursor = State {
                    places: words.places()?,
                    there: true,
                };
                ok()
            }
            "state" => Told::Rust(shown(&self.cursor.places)),
            call => return Err(unknown(call)),
        };
        words.done()?;
        Ok(told)
    }

    /// A refused opening leaves a cursor with every run gone, by the rules. The original leaves none.
    fn open_cursor(&mut self, kind: Kind, key: &[u8]) -> Told {
        let entry = std::mem::take(&mut self.cursor);
        if let Some(no) = self.refused(first([(10, runs_fine(self.runs.bytes.len(), &self.runs.ends))])) {
            return Told::Rules(format!("no {no}"));
        }
        let database = peek::Runs::new(self.lent());
        let opened = caught(|| block_on(peek::open(&database, kind.with(key))));
        match opened {
            Some(Ok(places)) => {
                self.cursor = State {
                    places: self.kept(places),
                    there: true,
                };
                ok()
            }
            Some(Err(error)) => Told::Rust(format!("no {}", number(error.into()))),
            None => {
                self.cursor = entry;
                Told::Panic
            }
        }
    }

    fn next(&mut self, kind: Kind, bound: &[u8], rooms: [usize; 2]) -> Told {
        let fine = runs_fine(self.runs.bytes.len(), &self.runs.ends);
        let no = first([
            (10, fine),
            (11, fine && places_fine(&self.cursor.places, &self.runs.ends)),
        ]);
        if let Some(no) = self.refused(no) {
            return Told::Rules(format!("no {no}"));
        }
        let there = self.cursor.there;
        if self.raw() && !there {
            return Told::Unable;
        }
        let (places, text) = self.stepped(kind.with(bound), rooms);
        if text.is_some() || self.raw() {
            self.cursor.places = places;
        }
        match text {
            Some(text) if there => Told::Rust(text),
            Some(text) => Told::Rules(text),
            None => Told::Panic,
        }
    }

    /// The places after the original's step, and its answer, or none where it panicked.
    fn stepped(&self, upper: Bound<&[u8]>, rooms: [usize; 2]) -> ([Option<u64>; FILE_COUNT], Option<String>) {
        let [mut key, mut value] = rooms.map(|room| vec![UNTOUCHED; room]);
        let database = peek::Runs::new(self.lent());
        let places = self.cursor.places.map(|place| place.map(|at| at as usize));
        let mut cursor = peek::make(&database, upper, &places);
        let done = caught(|| block_on(cursor.next(&mut key, &mut value)));
        let text = done.map(|answer| match answer {
            Ok(Some((k, v))) => format!("ok {} {}", hex(&key[..k]), hex(&value[..v])),
            Ok(None) => "end".into(),
            Err(error) => format!("no {}{}", number(error), touched(&[key, value])),
        });
        (self.kept(peek::look(&cursor)), text)
    }

    fn lent(&self) -> Lent<'_> {
        Lent {
            bytes: &self.runs.bytes,
            ends: &self.runs.ends,
            whole: !self.raw(),
        }
    }

    /// The original has a place in each of its files, also past the last run. No call shows it.
    fn kept(&self, places: Places) -> [Option<u64>; FILE_COUNT] {
        let count = self.runs.ends.len();
        std::array::from_fn(|i| places[i].filter(|_| i < count).map(|at| at as u64))
    }
}

fn number(error: CursorError<FlashFault>) -> u8 {
    match error {
        CursorError::Corrupted => 1,
        CursorError::KeyBufferTooSmall => 2,
        CursorError::ValueBufferTooSmall => 3,
        CursorError::Flash(FlashFault::LaterEdition) => 8,
        CursorError::Flash(FlashFault::Cut) => unreachable!("nothing is stored"),
    }
}

/// Both lent buffers, where a refused call wrote to one: that only happens to the raw original.
fn touched(buffers: &[Vec<u8>; 2]) -> String {
    if buffers.iter().flatten().all(|byte| *byte == UNTOUCHED) {
        return String::new();
    }
    format!(" wrote {} {}", hex(&buffers[0]), hex(&buffers[1]))
}

fn shown(places: &[Option<u64>; FILE_COUNT]) -> String {
    let word = |place: &Option<u64>| place.map_or("gone".into(), |at| at.to_string());
    format!("ok {}", places.iter().map(word).collect::<Vec<String>>().join(" "))
}
