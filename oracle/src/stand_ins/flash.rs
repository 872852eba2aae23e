//! For flash.rs: the trait, and a flash that keeps a list of what was done to it.
use crate::config::{ALIGN, ERASE_VALUE, PAGE_SIZE};
use crate::types::PageID;
use std::fmt::Debug;

/// What a flash may answer besides doing what it was asked.
#[derive(Clone, Copy, PartialEq, Eq, Debug)]
pub enum Fault {
    /// No store is left (9).
    Cut,
    /// A record of an edition that came after this one (8). The original has no name for it, so it comes along as a fault.
    LaterEdition,
}

pub trait Flash {
    type Error: Debug + From<Fault>;

    fn page_count(&self) -> usize;
    async fn erase(&mut self, page: PageID) -> Result<(), Self::Error>;
    async fn read(&mut self, page: PageID, offset: usize, data: &mut [u8]) -> Result<(), Self::Error>;
    async fn write(&mut self, page: PageID, offset: usize, data: &[u8]) -> Result<(), Self::Error>;

    /// The bytes of a run, for the file layer's stand-in. A flash of pages has none.
    fn run(&self, _file: usize) -> &[u8] {
        &[]
    }

    /// Whether a record is checked up to its end when its header is read, as the rules ask.
    fn checks_whole(&self) -> bool {
        true
    }
}

/// One thing done to a page.
#[derive(Clone, PartialEq, Eq, Debug)]
pub enum Op {
    Erase,
    /// Bytes put at an offset from the page's start.
    Store(usize, Vec<u8>),
}

/// A flash in memory. A store replaces bytes, whatever they were; a store or an erase takes one of those left.
#[derive(Clone)]
pub struct LogFlash {
    pub bytes: Vec<u8>,
    pub left: u64,
    pub log: Vec<Op>,
}

impl LogFlash {
    pub fn erased(length: usize) -> Self {
        LogFlash {
            bytes: vec![ERASE_VALUE; length],
            left: 0,
            log: Vec::new(),
        }
    }

    /// Where a part of a page lies. Panics where the part is not within the page, or the page not within the flash.
    fn part(&self, page: PageID, offset: usize, length: usize) -> std::ops::Range<usize> {
        assert!(page.index() < self.page_count(), "no such page");
        assert!(offset + length <= PAGE_SIZE, "past the page");
        assert!(offset % ALIGN == 0 && length % ALIGN == 0, "not aligned");
        let from = page.index() * PAGE_SIZE + offset;
        from..from + length
    }

    fn spend(&mut self) -> Result<(), Fault> {
        self.left = self.left.checked_sub(1).ok_or(Fault::Cut)?;
        Ok(())
    }
}

impl Flash for LogFlash {
    type Error = Fault;

    fn page_count(&self) -> usize {
        self.bytes.len() / PAGE_SIZE
    }

    async fn erase(&mut self, page: PageID) -> Result<(), Fault> {
        let part = self.part(page, 0, PAGE_SIZE);
        self.spend()?;
        self.bytes[part].fill(ERASE_VALUE);
        self.log.push(Op::Erase);
        Ok(())
    }

    async fn read(&mut self, page: PageID, offset: usize, data: &mut [u8]) -> Result<(), Fault> {
        let part = self.part(page, offset, data.len());
        data.copy_from_slice(&self.bytes[part]);
        Ok(())
    }

    async fn write(&mut self, page: PageID, offset: usize, data: &[u8]) -> Result<(), Fault> {
        let part = self.part(page, offset, data.len());
        self.spend()?;
        self.bytes[part].copy_from_slice(data);
        self.log.push(Op::Store(offset, data.to_vec()));
        Ok(())
    }
}
