//! An allocator's fields, by value.
use super::Allocator;
use crate::config::MAX_PAGE_COUNT;

#[derive(Clone, Copy, PartialEq, Eq, Debug)]
pub struct Fields {
    pub count: u64,
    pub next: u64,
    pub used: u64,
    pub marks: [u8; MAX_PAGE_COUNT / 8],
}

pub fn look(a: &Allocator) -> Fields {
    Fields {
        count: a.page_count as u64,
        next: a.next_page_id as u64,
        used: a.used as u64,
        marks: a.pages,
    }
}

pub fn make(f: &Fields) -> Allocator {
    Allocator {
        page_count: f.count as usize,
        pages: f.marks,
        used: f.used as usize,
        next_page_id: f.next as usize,
    }
}
