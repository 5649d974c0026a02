//! How a memory is divided.

use core::ops::Range;

use crate::layout;
use crate::settings::Settings;

/// The shard counts there are.
const SHARD_COUNTS: [u64; 7] = [1, 2, 4, 8, 16, 32, 64];
/// The most keys for which one shard is enough (02, request 6).
const KEYS_PER_SHARD: u64 = 16_384;
/// The bits of a hash from here on choose the shard.
const SHARD_SHIFT: u32 = 40;

/// So many shards, each with room for so many slots and as many debts. Meant for settings that are not refused as 4.
#[derive(Debug, Clone, Copy, PartialEq, Eq)]
pub struct Shape {
    /// The number of shards, a power of two.
    pub shards: u64,
    /// The slots of a shard, and its debts.
    pub cap: u64,
}

impl Shape {
    /// The shape that settings ask for. The shards are first raised to max keys / 16,384, rounded up.
    #[must_use]
    pub fn of(settings: &Settings) -> Self {
        let raised = settings
            .shards
            .max(settings.max_keys.div_ceil(KEYS_PER_SHARD));
        let shards = SHARD_COUNTS
            .into_iter()
            .find(|&count| count >= raised)
            .unwrap_or(SHARD_COUNTS[6]);
        Self {
            shards,
            cap: settings.max_keys.div_ceil(shards).max(1),
        }
    }

    /// The cap, to work out places with.
    #[must_use]
    pub const fn room(self) -> usize {
        self.cap as usize
    }

    /// The slots that all shards have room for.
    #[must_use]
    pub const fn places(self) -> u64 {
        self.shards * self.cap
    }

    /// The words of a shard.
    #[must_use]
    pub const fn shard_words(self) -> usize {
        layout::shard_words(self.room())
    }

    /// The words of the whole memory.
    #[must_use]
    pub const fn words(self) -> usize {
        layout::memory_words(self.shards as usize, self.room())
    }

    /// The words of a shard, in the memory.
    #[must_use]
    pub const fn shard(self, number: u64) -> Range<usize> {
        layout::shard(self.room(), number as usize)
    }

    /// The number of the shard of a key with this hash.
    #[must_use]
    pub const fn shard_of(self, hash: u64) -> u64 {
        hash >> SHARD_SHIFT & (self.shards - 1)
    }
}
