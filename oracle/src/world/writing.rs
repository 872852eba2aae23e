//! The original's writer, asked: a writer goes in by value and comes out by value, whatever its h.
use super::caught;
use crate::errors::Error;
use crate::flash::{Fault as FlashFault, LogFlash};
use crate::heads::{Head, MAGICS};
use crate::page::peek::{self, WriterFields};
use crate::page::PageWriter;
use crate::types::PageID;
use crate::{block_on, with_h, with_magic};
use std::future::Future;

/// The writer that a call left, and its answer: the values, the number of a refusal, or none where it panicked.
pub type Done = (WriterFields, Option<Result<String, u8>>);

type Plain<const H: usize> = Head<{ MAGICS[0] }, H>;

pub fn at_start() -> WriterFields {
    peek::look_writer(&PageWriter::<Head<{ MAGICS[0] }, 0>>::new())
}

/// Asks the original, and gives a refusal its number in docs/RULES.md, Refusals.
fn asked<T>(call: impl Future<Output = Result<T, Error<FlashFault>>>) -> Option<Result<T, u8>> {
    let done = caught(|| block_on(call))?;
    Some(done.map_err(|error| match error {
        Error::Corrupted => 1,
        Error::Flash(FlashFault::Cut) => 9,
        Error::Flash(FlashFault::LaterEdition) => unreachable!("a page has no records"),
    }))
}

fn silent(done: Option<Result<(), u8>>) -> Option<Result<String, u8>> {
    done.map(|answer| answer.map(|()| String::new()))
}

pub fn open(w: &WriterFields, flash: &mut LogFlash, page: u16, h: u64) -> Done {
    with_h!(h, H => {
        let mut w = peek::make_writer::<Plain<H>>(w);
        let done = asked(async { Ok(w.open(flash, PageID::from_raw(page).unwrap()).await) });
        (peek::look_writer(&w), silent(done))
    })
    .unwrap()
}

pub fn open_append(w: &WriterFields, flash: &mut LogFlash, page: u16, h: u64) -> Done {
    with_h!(h, H => {
        let mut w = peek::make_writer::<Plain<H>>(w);
        let done = asked(w.open_append(flash, PageID::from_raw(page).unwrap()));
        (peek::look_writer(&w), silent(done))
    })
    .unwrap()
}

pub fn write(w: &WriterFields, flash: &mut LogFlash, data: &[u8]) -> Done {
    with_h!(w.h, H => {
        let mut w = peek::make_writer::<Plain<H>>(w);
        let done = asked(w.write(flash, data));
        (peek::look_writer(&w), done.map(|answer| answer.map(|took| format!(" {took}"))))
    })
    .unwrap()
}

pub fn commit(w: &WriterFields, flash: &mut LogFlash) -> Done {
    with_h!(w.h, H => {
        let mut w = peek::make_writer::<Plain<H>>(w);
        let done = asked(w.commit(flash));
        (peek::look_writer(&w), silent(done))
    })
    .unwrap()
}

pub fn write_header(w: &WriterFields, flash: &mut LogFlash, magic: u32, header: &[u8]) -> Done {
    with_magic!(magic, w.h, M, H => {
        let mut w = peek::make_writer::<Head<M, H>>(w);
        let head = Head(header.try_into().unwrap());
        let done = asked(async { w.write_header(flash, head).await.map_err(Error::Flash) });
        (peek::look_writer(&w), silent(done))
    })
    .unwrap()
}

pub fn len(w: &WriterFields) -> Option<usize> {
    with_h!(w.h, H => peek::make_writer::<Plain<H>>(w).len())
}

pub fn page_id(w: &WriterFields) -> Option<usize> {
    with_h!(w.h, H => peek::make_writer::<Plain<H>>(w).page_id().index())
}
