//! The original Rust as the judge of the port (docs/ORACLE.md).
//!
//! `types`, `alloc`, `page` and `cursor` are the original's own files, built unchanged from where build.rs found them.
//! Each has a module `peek` of ours beside it, which reads and sets the fields that the original keeps to itself.
//! What those files lean on and is not ours to judge stands in `stand_ins`.
#![allow(async_fn_in_trait)]

#[macro_use]
mod stand_ins;

pub mod compare;
pub mod fixed;
pub mod gen;
mod images;
mod rng;
pub mod script;
pub mod world;

pub use stand_ins::record::Database;
pub use stand_ins::{block_on, config, errors, file, flash, heads, heapless, record};

#[allow(dead_code)]
pub mod types {
    include!(concat!(env!("EKV_SRC_AT"), "/types/mod.rs"));
}

#[allow(dead_code)]
#[allow(clippy::all)]
pub mod alloc {
    pub mod peek;
    include!(concat!(env!("EKV_SRC_AT"), "/alloc.rs"));
}

#[allow(dead_code)]
#[allow(clippy::all)]
pub mod page {
    pub mod peek;
    include!(concat!(env!("EKV_SRC_AT"), "/page.rs"));
}

#[allow(clippy::all)]
pub mod cursor {
    use crate::stand_ins::{embassy_sync, heapless};
    pub mod peek;
    include!(concat!(env!("EKV_SRC_AT"), "/cursor.rs"));
}
