//! Calls on the writer. Each answer has the stores left and what was done to the flash, in order.
use super::opening::magic;
use super::rules::{first, flash_fine, header_fine, writer_fine};
use super::writing::{self, Done};
use super::{ok, unknown, Told, World};
use crate::flash::{LogFlash, Op};
use crate::page::peek::WriterFields;
use crate::script::{hex, Fault, Words};

impl World {
    pub(super) fn writer_call(&mut self, words: &mut Words) -> Result<Told, Fault> {
        let told = match words.word()? {
            "new" => {
                self.writer = writing::at_start();
                ok()
            }
            "left" => {
                self.flash.left = words.number()?;
                ok()
            }
            "open" => self.on_page(words.page()?, words.number()?, writing::open),
            "open_append" => self.on_page(words.page()?, words.number()?, writing::open_append),
            "write_header" => self.write_header(magic(words)?, words.bytes()?),
            "write" => {
                let data = words.bytes()?;
                self.on_writer(self.no_writing(), |w, flash| writing::write(w, flash, &data))
            }
            "commit" => self.on_writer(self.no_writing(), writing::commit),
            "len" => self.of_writer(writing::len),
            "page_id" => self.of_writer(writing::page_id),
            "forge" => {
                let fields = forged(words)?;
                self.askable(fields.page, fields.h, |world| {
                    world.writer = fields;
                    ok()
                })
            }
            "state" => Told::Rust(shown(&self.writer)),
            call => return Err(unknown(call)),
        };
        words.done()?;
        Ok(told)
    }

    fn on_page(&mut self, page: u16, h: u64, call: fn(&WriterFields, &mut LogFlash, u16, u64) -> Done) -> Told {
        let no = first([
            (5, flash_fine(self.flash.bytes.len())),
            (6, header_fine(h)),
            (4, self.has(page)),
        ]);
        self.askable(page, h, |world| world.on_writer(no, |w, flash| call(w, flash, page, h)))
    }

    fn no_writing(&self) -> Option<u8> {
        first([
            (5, flash_fine(self.flash.bytes.len())),
            (11, writer_fine(&self.writer)),
            (4, self.has(self.writer.page)),
        ])
    }

    fn write_header(&mut self, magic: u32, header: Vec<u8>) -> Told {
        let h = header.len() as u64;
        let fits = header_fine(h) && h == self.writer.h;
        let no = first([
            (5, flash_fine(self.flash.bytes.len())),
            (6, fits),
            (11, writer_fine(&self.writer)),
            (4, self.has(self.writer.page)),
        ]);
        if self.raw() && !fits {
            return Told::Unable;
        }
        self.on_writer(no, |w, flash| writing::write_header(w, flash, magic, &header))
    }

    /// For a call that only looks.
    fn of_writer(&mut self, look: fn(&WriterFields) -> Option<usize>) -> Told {
        if let Some(no) = self.refused(first([(11, writer_fine(&self.writer))])) {
            return Told::Rules(format!("no {no}"));
        }
        match look(&self.writer) {
            Some(number) => Told::Rust(format!("ok {number}")),
            None => Told::Unable,
        }
    }

    /// A refusal leaves the writer as at entry, but for the raw original. What was done to the flash stands.
    fn on_writer(&mut self, no: Option<u8>, work: impl FnOnce(&WriterFields, &mut LogFlash) -> Done) -> Told {
        if let Some(no) = self.refused(no) {
            return Told::Rules(format!("no {no} {} 0", self.flash.left));
        }
        self.flash.log.clear();
        let (writer, answer) = work(&self.writer, &mut self.flash);
        if self.raw() || matches!(answer, Some(Ok(_))) {
            self.writer = writer;
        }
        let start = match answer {
            Some(Ok(values)) => format!("ok{values}"),
            Some(Err(no)) => format!("no {no}"),
            None => return Told::Panic,
        };
        Told::Rust(format!("{start} {} {}", self.flash.left, listed(&self.flash.log)))
    }
}

/// How many, then each: `e`, or `s`, offset and bytes.
fn listed(ops: &[Op]) -> String {
    let mut list = ops.len().to_string();
    for op in ops {
        match op {
            Op::Erase => list.push_str(" e"),
            Op::Store(at, bytes) => list.push_str(&format!(" s {at} {}", hex(bytes))),
        }
    }
    list
}

fn forged(words: &mut Words) -> Result<WriterFields, Fault> {
    Ok(WriterFields {
        page: words.page()?,
        h: words.number()?,
        armed: words.flag()?,
        sum: words.word32()?,
        group: words.array()?,
        len: words.number()?,
        offset: words.number()?,
        pending: words.number()?,
    })
}

fn shown(w: &WriterFields) -> String {
    let (armed, group) = (u8::from(w.armed), hex(&w.group));
    let places = format!("{} {} {}", w.len, w.offset, w.pending);
    format!("ok {} {} {armed} {:08x} {group} {places}", w.page, w.h, w.sum)
}
