//! What the original's four files lean on, each as small as they allow.
#[macro_use]
mod macros;

pub mod config;
pub mod embassy_sync;
pub mod errors;
pub mod file;
pub mod flash;
pub mod heads;
pub mod heapless;
pub mod record;

use std::future::Future;
use std::pin::pin;
use std::task::{Context, Poll, Waker};

/// Runs a future to its end. Nothing here ever waits, so the first poll is the last.
pub fn block_on<T>(future: impl Future<Output = T>) -> T {
    match pin!(future).poll(&mut Context::from_waker(Waker::noop())) {
        Poll::Ready(value) => value,
        Poll::Pending => unreachable!("a stand-in waited"),
    }
}
