//! Calls on the reader and on the slots for dehydrated ones.
use super::rules::{first, flash_fine, reader_fine};
use super::{caught, ok, unknown, Told, World};
use crate::block_on;
use crate::config::PAGE_SIZE;
use crate::errors::Error;
use crate::flash::{Fault as FlashFault, LogFlash};
use crate::page::peek::{self, ReaderFields};
use crate::page::{PageReader, MAX_CHUNK_SIZE};
use crate::script::{hex, Fault, Words, MAX_ROOM, SLOTS};

/// A reader's fields, and its copy of the chunk that it is in.
#[derive(Clone)]
pub struct State {
    pub fields: ReaderFields,
    copy: Box<[u8; MAX_CHUNK_SIZE]>,
}

pub fn at_start() -> State {
    look(PageReader::new())
}

fn look(mut r: PageReader) -> State {
    State {
        fields: peek::look_reader(&r),
        copy: Box::new(*peek::copied(&mut r)),
    }
}

pub(super) type Done = Result<String, Error<FlashFault>>;

impl World {
    pub(super) fn reader_call(&mut self, words: &mut Words) -> Result<Told, Fault> {
        let told = match words.word()? {
            "new" => {
                self.reader = at_start();
                ok()
            }
            "open" => self.on_named(words, Self::open)?,
            "read_header" => self.on_named(words, Self::header)?,
            "read" => self.read(words.size_to(MAX_ROOM)?),
            "skip" => {
                let n = words.number()?;
                self.of_reader(|r, flash| Ok(format!("ok {}", block_on(r.skip(flash, n as usize))?)))
            }
            "is_at_eof" => self.of_reader(|r, flash| Ok(format!("ok {}", u8::from(block_on(r.is_at_eof(flash))?)))),
            "dehydrate" => self.dehydrate(words.size_to(SLOTS - 1)?),
            "rehydrate_from" => self.rehydrate(words.size_to(SLOTS - 1)?),
            "page_id" => self.on_reader(self.no_looking(), |r, _| Ok(format!("ok {}", r.page_id().index()))),
            "forge" => {
                let fields = forged(words)?;
                self.askable(fields.page, 0, |world| {
                    world.reader.fields = fields;
                    world.copy_chunk();
                    ok()
                })
            }
            "state" => Told::Rust(shown(&self.reader.fields)),
            call => return Err(unknown(call)),
        };
        words.done()?;
        Ok(told)
    }

    pub(super) fn slot_call(&mut self, words: &mut Words) -> Result<Told, Fault> {
        let call = words.word()?;
        let slot = words.size_to(SLOTS - 1)?;
        let told = match call {
            "forge" => {
                let fields = forged(words)?;
                self.askable(fields.page, 0, |world| {
                    world.slots[slot] = fields;
                    ok()
                })
            }
            "state" => Told::Rust(shown(&self.slots[slot])),
            _ => return Err(unknown(call)),
        };
        words.done()?;
        Ok(told)
    }

    pub(super) fn has(&self, page: u16) -> bool {
        usize::from(page) < self.flash.bytes.len() / PAGE_SIZE
    }

    /// Where the flash is not what it was when the chunk was copied, the rules depart: they keep no copy.
    fn read(&mut self, room: usize) -> Told {
        let stale = !self.raw() && self.no_reading(&self.reader.fields).is_none() && self.copy_chunk();
        let told = self.of_reader(|r, flash| {
            let mut buffer = vec![0; room];
            let n = block_on(r.read(flash, &mut buffer))?;
            Ok(format!("ok {}", hex(&buffer[..n])))
        });
        match told {
            Told::Rust(text) if stale => Told::Rules(text),
            told => told,
        }
    }

    /// Copies the chunk that the reader's fields name, and answers whether what is left of it to read was another.
    fn copy_chunk(&mut self) -> bool {
        let f = self.reader.fields;
        if f.ended || !reader_fine(&f) || !self.has(f.page) {
            return false;
        }
        let from = usize::from(f.page) * PAGE_SIZE + f.offset as usize + 8;
        let (position, len) = (f.position as usize, f.len as usize);
        let chunk = &self.flash.bytes[from..from + len];
        let changed = self.reader.copy[position..len] != chunk[position..];
        self.reader.copy[..len].copy_from_slice(chunk);
        changed
    }

    fn dehydrate(&mut self, slot: usize) -> Told {
        let mut out = self.slots[slot];
        let told = self.on_reader(self.no_looking(), |r, _| {
            out = peek::look_slot(&r.dehydrate());
            Ok("ok".into())
        });
        self.slots[slot] = out;
        told
    }

    fn no_looking(&self) -> Option<u8> {
        first([(11, reader_fine(&self.reader.fields))])
    }

    pub(super) fn no_reading(&self, f: &ReaderFields) -> Option<u8> {
        first([
            (5, flash_fine(self.flash.bytes.len())),
            (11, reader_fine(f)),
            (4, self.has(f.page)),
        ])
    }

    fn of_reader(&mut self, work: impl FnOnce(&mut PageReader, &mut LogFlash) -> Done) -> Told {
        self.on_reader(self.no_reading(&self.reader.fields), work)
    }

    /// A refusal leaves the reader as at entry, but for the raw original.
    pub(super) fn on_reader(
        &mut self,
        no: Option<u8>,
        work: impl FnOnce(&mut PageReader, &mut LogFlash) -> Done,
    ) -> Told {
        if let Some(no) = self.refused(no) {
            return Told::Rules(format!("no {no}"));
        }
        let mut r = peek::make_reader(&self.reader.fields);
        *peek::copied(&mut r) = *self.reader.copy;
        let done = caught(|| work(&mut r, &mut self.flash));
        if self.raw() || matches!(done, Some(Ok(_))) {
            self.reader = look(r);
        }
        match done {
            Some(Ok(text)) => Told::Rust(text),
            Some(Err(_)) => Told::Rust("no 1".into()),
            None => Told::Panic,
        }
    }
}

fn forged(words: &mut Words) -> Result<ReaderFields, Fault> {
    Ok(ReaderFields {
        page: words.page()?,
        ended: words.flag()?,
        offset: words.number()?,
        len: words.number()?,
        crc: words.word32()?,
        position: words.number()?,
    })
}

fn shown(r: &ReaderFields) -> String {
    let ended = u8::from(r.ended);
    format!(
        "ok {} {ended} {} {} {:08x} {}",
        r.page, r.offset, r.len, r.crc, r.position
    )
}
