//! For errors.rs: the errors that the four files name, and how one becomes another.
use crate::page::ReadError;

#[derive(Clone, Copy, PartialEq, Eq, Debug)]
pub struct CorruptedError;

#[derive(Clone, Copy, PartialEq, Eq, Debug)]
pub enum Error<E> {
    Corrupted,
    Flash(E),
}

#[derive(Clone, Copy, PartialEq, Eq, Debug)]
pub enum CursorError<E> {
    KeyBufferTooSmall,
    ValueBufferTooSmall,
    Corrupted,
    Flash(E),
}

impl<E> From<CorruptedError> for Error<E> {
    fn from(_: CorruptedError) -> Self {
        Error::Corrupted
    }
}

impl<E> From<CorruptedError> for CursorError<E> {
    fn from(_: CorruptedError) -> Self {
        CursorError::Corrupted
    }
}

impl<E> From<Error<E>> for CursorError<E> {
    fn from(error: Error<E>) -> Self {
        match error {
            Error::Corrupted => CursorError::Corrupted,
            Error::Flash(fault) => CursorError::Flash(fault),
        }
    }
}

/// An end where there must be none is damage.
pub fn no_eof<E>(error: ReadError<E>) -> Error<E> {
    match error {
        ReadError::Eof | ReadError::Corrupted => Error::Corrupted,
        ReadError::Flash(fault) => Error::Flash(fault),
    }
}
