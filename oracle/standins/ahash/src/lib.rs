//! Stand-in for the `ahash` package: the hash of a key is the one number that the key writes, so the harness chooses it.

use core::hash::{Hash, Hasher};

/// The hasher of a store. It has no seeds: the same key has the same hash in every store.
#[derive(Debug, Clone, Copy, Default)]
pub struct RandomState;

impl RandomState {
    /// Takes the seeds that the published text gives, and drops them.
    #[must_use]
    pub const fn with_seeds(_first: u64, _second: u64, _third: u64, _fourth: u64) -> Self {
        Self
    }

    /// The number that `key` writes.
    #[inline]
    pub fn hash_one<T: Hash>(&self, key: T) -> u64 {
        let mut written = Written(None);
        key.hash(&mut written);
        written.finish()
    }
}

/// Holds what a key has written.
struct Written(Option<u64>);

impl Hasher for Written {
    fn finish(&self) -> u64 {
        self.0.expect("a key of the harness writes its hash")
    }

    fn write(&mut self, _bytes: &[u8]) {
        panic!("a key of the harness writes one u64 and no bytes");
    }

    fn write_u64(&mut self, hash: u64) {
        assert!(self.0.is_none(), "a key of the harness writes one u64 only");
        self.0 = Some(hash);
    }
}
