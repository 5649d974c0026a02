//! Who asks.

/// The identity of a key: the key and its hash, which is the caller's.
#[derive(Debug, Clone, Copy, PartialEq, Eq, PartialOrd, Ord, Hash)]
pub struct Key {
    /// The caller's hash of the key, the same at every call. Its bits 40 to 45 choose the shard, and its lowest bits the place in the shard's index, so
    /// all of these have to vary from key to key. A hash of 32 bits, or the key itself, has 0 in bits 40 to 45: then one shard gets all keys, no call is
    /// refused for it, and modems are turned away while the other shards are empty. You notice it by [`Store::len`](crate::Store::len): with 64 shards it
    /// stays at `max_keys` / 64 however many modems ask. Where you have only such a number, take [`Key::fnv1a`] of it. Keys with one hash share a
    /// remembered debt, so use a hash with a secret where strangers choose the keys.
    pub hash: u64,
    /// The key.
    pub key: u64,
}

impl Key {
    /// A key with a hash of the caller's own.
    #[must_use]
    pub const fn new(hash: u64, key: u64) -> Self {
        Self { hash, key }
    }

    /// A key with the library's hash: FNV-1a over the key's eight bytes, lowest first. It has no secret.
    #[must_use]
    pub fn fnv1a(key: u64) -> Self {
        Self::new(limiter_sys::limiter_key_hash(key), key)
    }
}
