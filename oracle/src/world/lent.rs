//! The runs as a flash, for the file layer's stand-in to read from.
use crate::flash::{Fault, Flash};
use crate::types::PageID;

pub struct Lent<'a> {
    pub bytes: &'a [u8],
    pub ends: &'a [u64],
    /// Whether a record is checked up to its end when its header is read.
    pub whole: bool,
}

impl Flash for Lent<'_> {
    type Error = Fault;

    fn page_count(&self) -> usize {
        0
    }

    async fn erase(&mut self, _: PageID) -> Result<(), Fault> {
        unreachable!("runs have no pages")
    }

    async fn read(&mut self, _: PageID, _: usize, _: &mut [u8]) -> Result<(), Fault> {
        unreachable!("runs have no pages")
    }

    async fn write(&mut self, _: PageID, _: usize, _: &[u8]) -> Result<(), Fault> {
        unreachable!("runs have no pages")
    }

    fn run(&self, file: usize) -> &[u8] {
        if file >= self.ends.len() {
            return &[];
        }
        let start = if file == 0 { 0 } else { self.ends[file - 1] };
        &self.bytes[start as usize..self.ends[file] as usize]
    }

    fn checks_whole(&self) -> bool {
        self.whole
    }
}
