//! Calls that put the reader on a page, and those that look for a page header.
use super::reader::{at_start, Done};
use super::rules::{first, flash_fine, header_fine};
use super::{Told, World};
use crate::flash::LogFlash;
use crate::heads::{Head, MAGICS};
use crate::page::{peek, read_header, PageReader};
use crate::script::{hex, Fault, Words};
use crate::types::PageID;
use crate::{block_on, with_magic};

/// What a page is opened by: magic, page, and the length of the higher header.
#[derive(Clone, Copy)]
pub struct Named {
    magic: u32,
    page: u16,
    h: u64,
}

impl World {
    pub(super) fn on_named(&mut self, words: &mut Words, call: fn(&mut Self, Named) -> Told) -> Result<Told, Fault> {
        let of = Named {
            magic: magic(words)?,
            page: words.page()?,
            h: words.number()?,
        };
        Ok(self.askable(of.page, of.h, |world| call(world, of)))
    }

    fn no_opening(&self, of: Named) -> Option<u8> {
        first([
            (5, flash_fine(self.flash.bytes.len())),
            (6, header_fine(of.h)),
            (4, self.has(of.page)),
        ])
    }

    /// Where a fresh reader opens at the end and this one is refused for its former chunk's sum, the rules depart.
    pub(super) fn open(&mut self, of: Named) -> Told {
        let no = self.no_opening(of);
        let entry = self.reader.clone();
        let told = self.on_reader(no, |r, flash| opened(of, r, flash));
        if self.raw() || !matches!(&told, Told::Rust(text) if text == "no 1") {
            return told;
        }
        self.reader = at_start();
        match self.on_reader(no, |r, flash| opened(of, r, flash)) {
            Told::Rust(text) if text != "no 1" => Told::Rules(text),
            _ => {
                self.reader = entry;
                told
            }
        }
    }

    /// Has no reader to change, so it is asked of one that is thrown away.
    pub(super) fn header(&mut self, of: Named) -> Told {
        let entry = std::mem::replace(&mut self.reader, at_start());
        let told = self.on_reader(self.no_opening(of), |_, flash| {
            let page = PageID::from_raw(of.page).unwrap();
            with_magic!(of.magic, of.h, M, H => {
                block_on(read_header::<_, Head<M, H>>(flash, page)).map(|head| format!("ok {}", hex(&head.0)))
            })
            .unwrap()
        });
        self.reader = entry;
        told
    }

    /// Where the dehydrated reader is at its end and the original refuses it, the rules depart.
    pub(super) fn rehydrate(&mut self, slot: usize) -> Told {
        let from = self.slots[slot];
        let told = self.on_reader(self.no_reading(&from), |r, flash| {
            block_on(r.rehydrate_from(flash, &peek::make_slot(&from)))?;
            Ok("ok".into())
        });
        let departs = match &told {
            Told::Rust(text) => text == "no 1",
            Told::Panic => true,
            _ => false,
        };
        if self.raw() || !from.ended || !departs {
            return told;
        }
        self.reader.fields = from;
        Told::Rules("ok".into())
    }
}

fn opened(of: Named, r: &mut PageReader, flash: &mut LogFlash) -> Done {
    let page = PageID::from_raw(of.page).unwrap();
    with_magic!(of.magic, of.h, M, H => {
        block_on(r.open::<_, Head<M, H>>(flash, page)).map(|head| format!("ok {}", hex(&head.0)))
    })
    .unwrap()
}

pub fn magic(words: &mut Words) -> Result<u32, Fault> {
    let magic = words.word32()?;
    let known = MAGICS.contains(&magic);
    known
        .then_some(magic)
        .ok_or(format!("not a magic of this build: {magic:08x}"))
}
