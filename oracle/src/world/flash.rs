//! Calls that make and show the flash.
use super::{ok, unknown, Told, World};
use crate::config::PAGE_SIZE;
use crate::flash::LogFlash;
use crate::page::peek::crc32;
use crate::script::{hex, Fault, Words, MAX_FLASH};

/// One erased page, and a thousand stores left.
pub fn at_start() -> LogFlash {
    LogFlash {
        left: 1000,
        ..LogFlash::erased(PAGE_SIZE)
    }
}

impl World {
    pub(super) fn flash_call(&mut self, words: &mut Words) -> Result<Told, Fault> {
        let call = words.word()?;
        let told = match call {
            "pages" => self.make(words.size_to(MAX_FLASH / PAGE_SIZE)? * PAGE_SIZE),
            "bytes" => self.make(words.size_to(MAX_FLASH)?),
            "fill" => {
                let (at, length, with) = (self.place(words)?, words.size_to(MAX_FLASH)?, words.array::<1>()?);
                self.part(at, length)?.fill(with[0]);
                ok()
            }
            "poke" => {
                let (at, bytes) = (self.place(words)?, words.bytes()?);
                self.part(at, bytes.len())?.copy_from_slice(&bytes);
                ok()
            }
            "dump" => {
                let (at, length) = (self.place(words)?, words.size_to(PAGE_SIZE)?);
                Told::Rust(format!("ok {}", hex(self.part(at, length)?)))
            }
            "sum" => {
                let at = words.size_to(MAX_FLASH)? * PAGE_SIZE;
                Told::Rust(format!("ok {:08x}", crc32(self.part(at, PAGE_SIZE)?)))
            }
            _ => return Err(unknown(call)),
        };
        words.done()?;
        Ok(told)
    }

    fn make(&mut self, length: usize) -> Told {
        self.flash.bytes = LogFlash::erased(length).bytes;
        ok()
    }

    /// A page and an offset, as the bytes before it.
    fn place(&self, words: &mut Words) -> Result<usize, Fault> {
        Ok(words.size_to(MAX_FLASH)? * PAGE_SIZE + words.size_to(MAX_FLASH)?)
    }

    fn part(&mut self, at: usize, length: usize) -> Result<&mut [u8], Fault> {
        let part = self.flash.bytes.get_mut(at..at + length);
        part.ok_or("past the flash".into())
    }
}
