//! The original: the same jobs over its own files, which the oracle builds unchanged. The flash under it is memory and nothing else.
use oracle::alloc::Allocator;
use oracle::block_on;
use oracle::config::{ERASE_VALUE, PAGE_SIZE};
use oracle::cursor::peek::{make, open, Runs};
use oracle::flash::{Fault, Flash};
use oracle::heads::{Head, MAGICS};
use oracle::page::{PageReader, PageWriter};
use oracle::types::{OptionPageID, PageID};
use std::ops::Bound;

/// A page header without a higher one.
type Plain = Head<{ MAGICS[0] }, 0>;

pub fn mixed(sum: u64, x: u64) -> u64 {
    (sum % (1 << 32)) * 31 + x % (1 << 32)
}

fn page_id(page: u16) -> PageID {
    OptionPageID::from_raw(page).into_option().unwrap()
}

pub fn crc32(bytes: &[u8]) -> u32 {
    oracle::page::peek::crc32(bytes)
}

/// A page for each place, until there is none, and all of them freed.
pub fn alloc_each(count: usize, seed: u32, places: &mut [u16]) -> u64 {
    let mut a = Allocator::new();
    a.reset(count, seed);
    let mut n = 0;
    while n < places.len() {
        let Some(page) = a.try_allocate() else { break };
        places[n] = page.index() as u16;
        n += 1;
    }
    let refused = places[..n].iter().any(|&page| a.free(page_id(page)).is_err());
    mixed(mixed(mixed(0, n as u64), refused.into()), a.free_pages() as u64)
}

pub fn alloc_cycle(count: usize, seed: u32) -> u64 {
    let mut a = Allocator::new();
    a.reset(count, seed);
    let mut sum = 0;
    for _ in 0..256 {
        let code = match a.try_allocate() {
            Some(page) => page.index() as u64,
            None => 0x1_0000,
        };
        sum = mixed(sum, code);
    }
    for page in 0..256 {
        let code = match a.free(page_id(page)) {
            Ok(()) => 0,
            Err(_) => 1,
        };
        sum = mixed(sum, code);
    }
    sum
}

pub struct Memory(pub Vec<u8>);

impl Memory {
    fn part(&mut self, page: PageID, offset: usize, length: usize) -> &mut [u8] {
        &mut self.0[page.index() * PAGE_SIZE + offset..][..length]
    }
}

impl Flash for Memory {
    type Error = Fault;

    fn page_count(&self) -> usize {
        self.0.len() / PAGE_SIZE
    }

    async fn erase(&mut self, page: PageID) -> Result<(), Fault> {
        self.part(page, 0, PAGE_SIZE).fill(ERASE_VALUE);
        Ok(())
    }

    async fn read(&mut self, page: PageID, offset: usize, data: &mut [u8]) -> Result<(), Fault> {
        data.copy_from_slice(self.part(page, offset, data.len()));
        Ok(())
    }

    async fn write(&mut self, page: PageID, offset: usize, data: &[u8]) -> Result<(), Fault> {
        self.part(page, offset, data.len()).copy_from_slice(data);
        Ok(())
    }
}

/// The reader is the caller's, as it holds a copy of a page: making one is not part of the job.
pub fn read_page(reader: &mut PageReader, flash: &mut Memory, page: u16, out: &mut [u8]) -> u64 {
    block_on(async {
        let Ok(Head([])) = reader.open::<_, Plain>(flash, page_id(page)).await else {
            return 1 << 32;
        };
        let mut put = 0;
        loop {
            match reader.read(flash, &mut out[put..]).await {
                Ok(0) => return put as u64,
                Ok(n) => put += n,
                Err(_) => return (1 << 32) + put as u64,
            }
        }
    })
}

pub fn write_page(flash: &mut Memory, page: u16, payload: &[u8], piece: usize) -> u64 {
    block_on(async {
        let mut w = PageWriter::<Plain>::new();
        w.open(flash, page_id(page)).await;
        if w.write_header(flash, Head([])).await.is_err() {
            return 9 << 32;
        }
        let mut taken = 0;
        loop {
            let rest = &payload[taken..];
            match w.write(flash, &rest[..piece.min(rest.len())]).await {
                Ok(0) => break,
                Ok(n) => taken += n,
                Err(_) => return (9 << 32) + taken as u64,
            }
        }
        match w.commit(flash).await {
            Ok(()) => taken as u64,
            Err(_) => (9 << 32) + taken as u64,
        }
    })
}

/// Runs in memory, for the file layer's stand-in.
pub struct Files(pub Vec<Vec<u8>>);

impl Flash for Files {
    type Error = Fault;

    fn page_count(&self) -> usize {
        0
    }

    async fn erase(&mut self, _: PageID) -> Result<(), Fault> {
        unreachable!()
    }

    async fn read(&mut self, _: PageID, _: usize, _: &mut [u8]) -> Result<(), Fault> {
        unreachable!()
    }

    async fn write(&mut self, _: PageID, _: usize, _: &[u8]) -> Result<(), Fault> {
        unreachable!()
    }

    fn run(&self, file: usize) -> &[u8] {
        &self.0[file]
    }
}

fn word(bytes: &[u8]) -> u64 {
    bytes.first_chunk().map_or(0, |b| u32::from_le_bytes(*b)).into()
}

pub fn merge(runs: &Runs<Files>, most: usize, key: &mut [u8], value: &mut [u8]) -> u64 {
    block_on(async {
        let Ok(places) = open(runs, Bound::Unbounded).await else {
            return 1;
        };
        let mut cursor = make(runs, Bound::Unbounded, &places);
        let mut sum = 0;
        for _ in 0..most {
            match cursor.next(key, value).await {
                Ok(Some((k, v))) => {
                    let lengths = mixed(mixed(sum, k as u64), v as u64);
                    sum = mixed(mixed(lengths, word(key)), word(value));
                }
                Ok(None) => return sum,
                Err(_) => return mixed(sum, 1),
            }
        }
        sum
    })
}
