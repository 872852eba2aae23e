//! A cursor's places, by value.
use super::Cursor;
use crate::config::FILE_COUNT;
use crate::file::DehydratedFileReader;
use crate::flash::Flash;
use crate::stand_ins::embassy_sync::blocking_mutex::raw::OneThread;
use crate::Database;
use std::ops::Bound;

/// For each run a position from its start, or gone.
pub type Places = [Option<usize>; FILE_COUNT];

pub type Runs<F> = Database<F, OneThread>;

pub fn look<F: Flash>(c: &Cursor<'_, F, OneThread>) -> Places {
    c.readers.map(|place| place.map(|r| r.at))
}

/// A cursor at these places, with the upper bound of the next call.
pub fn make<'a, F: Flash>(
    runs: &'a Runs<F>,
    upper_bound: Bound<&'a [u8]>,
    places: &Places,
) -> Cursor<'a, F, OneThread> {
    let reader = |i: usize| places[i].map(|at| DehydratedFileReader { file: i as u8, at });
    Cursor {
        db: runs,
        upper_bound,
        readers: std::array::from_fn(reader),
    }
}

/// A cursor with a lower bound, at its places, or the original's error.
pub async fn open<F: Flash>(
    runs: &Runs<F>,
    lower_bound: Bound<&[u8]>,
) -> Result<Places, crate::errors::Error<F::Error>> {
    let cursor = Cursor::new(runs, lower_bound, Bound::Unbounded).await?;
    Ok(look(&cursor))
}
