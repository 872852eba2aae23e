//! For record.rs: records (docs/FORMAT.md, Runs), and the database that the cursor asks for.
use super::embassy_sync::blocking_mutex::raw::RawMutex;
use super::embassy_sync::mutex::Mutex;
use super::file::FileManager;
use crate::config::{MAX_KEY_SIZE, MAX_VALUE_SIZE, RECORD_HEADER_SIZE};
use crate::errors::CorruptedError;
use crate::flash::Flash;

/// Where a record ends, or why it is refused.
#[derive(Clone, Copy, PartialEq, Eq, Debug)]
pub enum End {
    At(usize),
    Corrupted,
    LaterEdition,
}

/// The checks of the record that starts at a position before the run's end, in the order of docs/FORMAT.md, Runs. The last one, on the
/// run's end, can be left out, as the original's file layer has none like it.
pub fn end_of(run: &[u8], at: usize, whole: bool) -> End {
    let Some(header) = run[at..].first_chunk::<RECORD_HEADER_SIZE>() else {
        return End::Corrupted;
    };
    if header[..2] != [0x48, 0x56] {
        return End::Corrupted;
    }
    match header[2] {
        0 | 1 => {}
        2..=127 => return End::LaterEdition,
        128..=255 => return End::Corrupted,
    }
    let (key, value) = lengths(header);
    if key > MAX_KEY_SIZE || value > MAX_VALUE_SIZE {
        return End::Corrupted;
    }
    let end = at + RECORD_HEADER_SIZE + key + value;
    if whole && end > run.len() {
        return End::Corrupted;
    }
    End::At(end)
}

fn lengths(header: &[u8; RECORD_HEADER_SIZE]) -> (usize, usize) {
    (header[3].into(), u16::from_le_bytes([header[4], header[5]]).into())
}

#[derive(Clone, Copy, PartialEq, Eq, Debug)]
pub struct RecordHeader {
    pub key_len: usize,
    pub value_len: usize,
    pub is_delete: bool,
}

impl RecordHeader {
    /// The fields of a header that was checked when it was read.
    pub fn decode(header: [u8; RECORD_HEADER_SIZE]) -> Result<Self, CorruptedError> {
        let (key_len, value_len) = lengths(&header);
        Ok(RecordHeader {
            key_len,
            value_len,
            is_delete: header[2] == 1,
        })
    }
}

/// In the place of the page readers, which runs in memory have no use for.
pub struct Scratch;

pub struct Inner<F: Flash> {
    pub files: FileManager<F>,
    pub readers: [Scratch; 1],
}

pub struct Database<F: Flash, M: RawMutex> {
    pub inner: Mutex<M, Inner<F>>,
}

impl<F: Flash, M: RawMutex> Database<F, M> {
    pub fn new(flash: F) -> Self {
        Database {
            inner: Mutex::new(Inner {
                files: FileManager { flash },
                readers: [Scratch],
            }),
        }
    }
}
