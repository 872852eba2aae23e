//! The checks before the work (docs/RULES.md, Order of checks, Ranges): what is allowed, and which state is in range.
use crate::alloc::peek::Fields;
use crate::config::{FILE_COUNT, MAX_HEADER_SIZE, MAX_PAGE_COUNT, PAGE_SIZE};
use crate::page::peek::{ReaderFields, WriterFields};

/// The first refusal that is due, the checks given in their order: 5, 10, 7, 6, 11, 4.
pub fn first<const N: usize>(checks: [(u8, bool); N]) -> Option<u8> {
    checks.iter().find(|(_, fine)| !fine).map(|(no, _)| *no)
}

pub fn flash_fine(length: usize) -> bool {
    length % PAGE_SIZE == 0 && (1..=MAX_PAGE_COUNT).contains(&(length / PAGE_SIZE))
}

pub fn header_fine(h: u64) -> bool {
    h % 4 == 0 && h <= MAX_HEADER_SIZE as u64
}

pub fn count_fine(count: u64) -> bool {
    (1..=MAX_PAGE_COUNT as u64).contains(&count)
}

pub fn allocator_fine(a: &Fields) -> bool {
    let marked = |page: u64| a.marks[page as usize / 8] >> (page % 8) & 1 == 1;
    a.count <= MAX_PAGE_COUNT as u64
        && (a.next < a.count || (a.next == 0 && a.count == 0))
        && a.used == (0..a.count).filter(|page| marked(*page)).count() as u64
        && !(a.count..MAX_PAGE_COUNT as u64).any(marked)
}

pub fn reader_fine(r: &ReaderFields) -> bool {
    let end = u128::from(r.offset) + 8 + u128::from(r.len);
    r.page < 256 && (r.ended || (r.offset % 4 == 0 && 12 <= r.offset && end <= 4096 && r.position <= r.len))
}

pub fn writer_fine(w: &WriterFields) -> bool {
    let start = 12 + u128::from(w.h);
    let offset = u128::from(w.offset);
    let pending = u128::from(w.pending);
    w.page < 256
        && header_fine(w.h)
        && offset % 4 == 0
        && (start..=4096).contains(&offset)
        && (pending == 0 || (pending <= 4076 && offset + pending <= 4088))
        && u128::from(w.len) <= offset - start + pending
}

pub fn runs_fine(length: usize, ends: &[u64]) -> bool {
    ends.len() <= FILE_COUNT && ends.is_sorted() && ends.last().is_none_or(|end| *end <= length as u64)
}

/// For runs that are fine.
pub fn places_fine(places: &[Option<u64>; FILE_COUNT], ends: &[u64]) -> bool {
    let start = |i: usize| if i == 0 { 0 } else { ends[i - 1] };
    places.iter().enumerate().all(|(i, place)| match place {
        None => true,
        Some(at) => i < ends.len() && *at <= ends[i] - start(i),
    })
}
