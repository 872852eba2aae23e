//! Pages and runs as bytes.
use crate::page::peek::crc32;

/// A page's header with the higher header behind it.
pub fn header(magic: u32, page: usize, higher: &[u8]) -> Vec<u8> {
    let numbers = [magic, page as u32, crc32(higher)];
    let mut bytes: Vec<u8> = numbers.iter().flat_map(|number| number.to_le_bytes()).collect();
    bytes.extend(higher);
    bytes
}

/// A chunk, filled up to a whole number of words.
pub fn chunk(payload: &[u8], padding: u8) -> Vec<u8> {
    let mut bytes = chunk_header(payload);
    bytes.extend(payload);
    bytes.resize(bytes.len().next_multiple_of(4), padding);
    bytes
}

pub fn chunk_header(payload: &[u8]) -> Vec<u8> {
    let mut bytes = vec![0xC5, 0x59];
    bytes.extend((payload.len() as u16).to_le_bytes());
    bytes.extend(crc32(payload).to_le_bytes());
    bytes
}

/// A record (docs/FORMAT.md, Runs).
pub fn record(kind: u8, key: &[u8], value: &[u8]) -> Vec<u8> {
    let mut bytes = vec![0x48, 0x56, kind, key.len() as u8];
    bytes.extend((value.len() as u16).to_le_bytes());
    bytes.extend(key);
    bytes.extend(value);
    bytes
}
