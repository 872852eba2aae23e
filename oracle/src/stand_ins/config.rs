//! For config.rs: the numbers of the build that we ship (docs/RULES.md, Build).

pub const PAGE_SIZE: usize = 4096;
pub const ALIGN: usize = 4;
pub const ERASE_VALUE: u8 = 0xFF;
pub const MAX_PAGE_COUNT: usize = 256;
pub const MAX_KEY_SIZE: usize = 64;
pub const MAX_VALUE_SIZE: usize = 1024;

/// Two files for each of eight levels, and one.
pub const FILE_COUNT: usize = 2 * 8 + 1;

/// More than a page has room for: page.rs takes the smaller of the two.
pub const MAX_CHUNK_SIZE: usize = PAGE_SIZE;

/// The longest higher header.
pub const MAX_HEADER_SIZE: usize = 64;

/// Of a record: mark of 2, kind, key length, value length of 2.
pub const RECORD_HEADER_SIZE: usize = 6;
