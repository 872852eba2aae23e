//! The fields of readers and writers, by value, and the sum.
use super::{ChunkIter, Crc32, DehydratedPageReader, Header, PageReader, PageWriter, MAX_CHUNK_SIZE};
use crate::config::ALIGN;
use crate::types::PageID;
use std::marker::PhantomData;

/// The longest payload.
pub const PAYLOAD: usize = MAX_CHUNK_SIZE;

pub fn crc32(data: &[u8]) -> u32 {
    super::crc32(data)
}

/// A reader's, and a dehydrated one's. The length of the chunks before is left out: no call shows it.
#[derive(Clone, Copy, PartialEq, Eq, Debug)]
pub struct ReaderFields {
    pub page: u16,
    pub ended: bool,
    pub offset: u64,
    pub len: u64,
    pub crc: u32,
    pub position: u64,
}

#[derive(Clone, Copy, PartialEq, Eq, Debug)]
pub struct WriterFields {
    pub page: u16,
    pub h: u64,
    pub armed: bool,
    /// The raw register.
    pub sum: u32,
    pub group: [u8; ALIGN],
    pub len: u64,
    pub offset: u64,
    pub pending: u64,
}

/// A state whose page is none is only ever replaced, so another page does for it.
fn page_of(raw: u16) -> PageID {
    PageID::from_raw(raw).unwrap_or(PageID::zero())
}

fn walk_of(f: &ReaderFields) -> ChunkIter {
    ChunkIter {
        page_id: page_of(f.page),
        at_end: f.ended,
        prev_chunks_len: 0,
        chunk_offset: f.offset as usize,
        chunk_len: f.len as usize,
        chunk_crc: f.crc,
    }
}

fn fields_of(ch: &ChunkIter, position: usize) -> ReaderFields {
    ReaderFields {
        page: ch.page_id.index() as u16,
        ended: ch.at_end,
        offset: ch.chunk_offset as u64,
        len: ch.chunk_len as u64,
        crc: ch.chunk_crc,
        position: position as u64,
    }
}

pub fn look_reader(r: &PageReader) -> ReaderFields {
    fields_of(&r.ch, r.chunk_pos)
}

/// The reader's copy of a chunk's bytes.
pub fn copied(r: &mut PageReader) -> &mut [u8; MAX_CHUNK_SIZE] {
    &mut r.buf
}

pub fn make_reader(f: &ReaderFields) -> PageReader {
    PageReader {
        ch: walk_of(f),
        chunk_pos: f.position as usize,
        buf: [0; MAX_CHUNK_SIZE],
    }
}

pub fn same_reader(r: &PageReader) -> PageReader {
    PageReader {
        ch: r.ch.clone(),
        chunk_pos: r.chunk_pos,
        buf: r.buf,
    }
}

pub fn look_slot(d: &DehydratedPageReader) -> ReaderFields {
    fields_of(&d.ch, d.chunk_pos)
}

pub fn make_slot(f: &ReaderFields) -> DehydratedPageReader {
    DehydratedPageReader {
        ch: walk_of(f),
        chunk_pos: f.position as usize,
    }
}

pub fn look_writer<H: Header>(w: &PageWriter<H>) -> WriterFields {
    WriterFields {
        page: w.page_id.index() as u16,
        h: size_of::<H>() as u64,
        armed: w.needs_erase,
        sum: w.crc.crc,
        group: w.align_buf,
        len: w.total_pos as u64,
        offset: w.chunk_offset as u64,
        pending: w.chunk_pos as u64,
    }
}

/// A writer with these fields. The h among them is not looked at: it is H's size.
pub fn make_writer<H: Header>(f: &WriterFields) -> PageWriter<H> {
    PageWriter {
        _phantom: PhantomData,
        page_id: page_of(f.page),
        needs_erase: f.armed,
        crc: Crc32 { crc: f.sum },
        align_buf: f.group,
        total_pos: f.len as usize,
        chunk_offset: f.offset as usize,
        chunk_pos: f.pending as usize,
    }
}
