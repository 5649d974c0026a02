//! The program by hand: the files of ../shared/limit, beside the repository, as they stand. Nothing of them is in the repository; no gate step reads them, and
//! rustfmt is told to leave them alone.

#![allow(clippy::all, dead_code)]

#[path = "../../../shared/limit/src/calls.rs"]
#[rustfmt::skip]
pub mod calls;
#[path = "../../../shared/limit/src/index.rs"]
#[rustfmt::skip]
pub mod index;
#[path = "../../../shared/limit/src/settings.rs"]
#[rustfmt::skip]
pub mod settings;
#[path = "../../../shared/limit/src/shard.rs"]
#[rustfmt::skip]
pub mod shard;
