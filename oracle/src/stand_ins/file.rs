//! For file.rs: a file is one run of records (docs/FORMAT.md, Runs), and a file reader a position in it.
use super::record::{end_of, End, Scratch};
use crate::errors::Error;
use crate::flash::{Fault, Flash};
use crate::page::ReadError;

pub type FileID = u8;

pub struct FileManager<F: Flash> {
    pub flash: F,
}

/// A run and a position from its start.
#[derive(Clone, Copy, PartialEq, Eq, Debug)]
pub struct DehydratedFileReader {
    pub file: FileID,
    pub at: usize,
}

pub struct FileReader {
    file: FileID,
    at: usize,
    /// Where the record ends that is being read: a read from there on is one of a header.
    until: usize,
}

impl<F: Flash> FileManager<F> {
    pub async fn remount_if_dirty(&mut self, _: &mut Scratch) -> Result<(), Error<F::Error>> {
        Ok(())
    }

    pub fn read(&mut self, _: &mut Scratch, file: FileID) -> FileReader {
        FileReader::at(file, 0)
    }

    pub async fn read_rehydrated(
        &mut self,
        _: &mut Scratch,
        from: &DehydratedFileReader,
    ) -> Result<FileReader, Error<F::Error>> {
        Ok(FileReader::at(from.file, from.at))
    }
}

impl FileReader {
    fn at(file: FileID, at: usize) -> Self {
        FileReader { file, at, until: at }
    }

    pub fn dehydrate(&self) -> DehydratedFileReader {
        DehydratedFileReader {
            file: self.file,
            at: self.at,
        }
    }

    /// Fills data. At the run's end that is Eof; past it, damage, and data has then what there was.
    pub async fn read<F: Flash>(&mut self, m: &mut FileManager<F>, data: &mut [u8]) -> Result<(), ReadError<F::Error>> {
        if data.is_empty() {
            return Ok(());
        }
        let run = m.flash.run(self.file.into());
        if run.len() <= self.at {
            return Err(ReadError::Eof);
        }
        if self.at == self.until {
            self.until = match end_of(run, self.at, m.flash.checks_whole()) {
                End::At(end) => end,
                End::Corrupted => return Err(ReadError::Corrupted),
                End::LaterEdition => return Err(ReadError::Flash(Fault::LaterEdition.into())),
            };
        }
        let n = data.len().min(run.len() - self.at);
        data[..n].copy_from_slice(&run[self.at..][..n]);
        self.at += n;
        if n < data.len() {
            return Err(ReadError::Corrupted);
        }
        Ok(())
    }

    pub async fn skip<F: Flash>(&mut self, m: &mut FileManager<F>, length: usize) -> Result<(), ReadError<F::Error>> {
        if m.flash.run(self.file.into()).len() < self.at + length {
            return Err(ReadError::Eof);
        }
        self.at += length;
        Ok(())
    }
}

pub enum SeekDirection {
    Left,
    Right,
}

/// Finds no page to start a binary search at, so that the linear search does it all.
pub struct FileSearcher {
    reader: FileReader,
}

impl FileSearcher {
    pub fn new(reader: FileReader) -> Self {
        FileSearcher { reader }
    }

    pub fn reader(&mut self) -> &mut FileReader {
        &mut self.reader
    }

    pub async fn start<F: Flash>(&mut self, _: &mut FileManager<F>) -> Result<bool, Error<F::Error>> {
        Ok(false)
    }

    pub async fn seek<F: Flash>(
        &mut self,
        _: &mut FileManager<F>,
        way: SeekDirection,
    ) -> Result<bool, Error<F::Error>> {
        match way {
            SeekDirection::Left | SeekDirection::Right => unreachable!("no search was started"),
        }
    }
}
