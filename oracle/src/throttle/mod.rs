//! The published files, as few lines changed as could be (oracle/README.md lists them, oracle/edits.patch holds them).
//! `error` is the part of the published file of that name that the builder needs. The modules `store::one_shard` and
//! `perkey::harness` are ours: as children they can read what the published files keep to themselves.

pub mod decision;
pub mod error;
pub mod eviction;
pub mod perkey;

// Remarks of clippy on the published text, which is left as it is, and on the one edit that leaves its next line without need.
//
// Not called here: `Store::with_existing`, which only the left-out `reset` calls, and, when testing, the three calls that the
// published tests (not at hand) use.
#[allow(dead_code, clippy::collapsible_if, clippy::useless_conversion)]
pub mod store;
