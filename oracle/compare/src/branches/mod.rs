//! The branches of 01's rules, and how often each was taken.

mod hits;
mod list;
mod reasons;

pub use hits::{Hits, Origin};
pub use list::Branch;
