//! A key of the harness.

use core::hash::{Hash, Hasher};

use crate::layout::slot;

/// The identity of a key: its hash and the key itself. The hash is the caller's, so two keys may be given the same one.
#[derive(Debug, Clone, Copy, PartialEq, Eq)]
pub struct Key {
    /// What the store takes for the key's hash.
    pub hash: u64,
    /// The key.
    pub key: u64,
}

impl Key {
    /// The identity that a slot's words name.
    pub(crate) fn of(slot: &[u64]) -> Self {
        Self {
            hash: slot[slot::HASH],
            key: slot[slot::KEY],
        }
    }
}

impl Hash for Key {
    #[inline]
    fn hash<H: Hasher>(&self, state: &mut H) {
        state.write_u64(self.hash);
    }
}
