//! The words of a memory: every width and offset. Nothing else in the oracle or the comparison states one.
//!
//! A memory is the total of its slots (02, request 10), then its shards, one after another. A shard is a head (slot count, hand, sweep),
//! `cap` slots, the ledger's head (debt count, cursor), `cap` debts, and the places of two indexes, of the slots and of the debts. Offsets
//! are counted from the start of the shard, but for those in [`slot`] and [`debt`].

use core::ops::Range;

/// Where the total stands: the slots of all shards. It is counted from the start of the memory.
pub const TOTAL: usize = 0;
/// Where the first shard starts, in the memory.
const SHARDS: usize = 1;
/// Where the number of slots stands.
const SLOT_COUNT: usize = 0;
/// Where the hand stands: the slot that the next eviction looks at first.
pub const HAND: usize = 1;
/// Where the idle sweep's cursor stands.
pub const SWEEP: usize = 2;
/// The words before the slots.
const HEAD_WORDS: usize = 3;
/// The words before the debts, from where the ledger starts: the debt count and the cursor.
const LEDGER_HEAD_WORDS: usize = 2;
/// The places of an index for each item that there is room for.
const PLACES_PER_ITEM: usize = 2;

/// The words of a slot.
pub mod slot {
    /// The key's hash.
    pub const HASH: usize = 0;
    /// The key.
    pub const KEY: usize = 1;
    /// The bucket's shortfall.
    pub const SHORTFALL: usize = 2;
    /// The bucket's stamp.
    pub const STAMP: usize = 3;
    /// The mark.
    pub const MARK: usize = 4;
    /// The idle stamp, in ms.
    pub const LAST_SEEN: usize = 5;
    /// How many tries the bucket answered Retry (02, request 8).
    pub const TURNED_AWAY: usize = 6;
    /// How many there are.
    pub const WORDS: usize = 7;
    /// What they are called.
    pub const NAMES: [&str; WORDS] = [
        "hash",
        "key",
        "shortfall",
        "stamp",
        "mark",
        "last-seen",
        "turned-away",
    ];
}

/// The words of a debt.
pub mod debt {
    /// The hash of the key that owes.
    pub const HASH: usize = 0;
    /// When it is settled.
    pub const SETTLES_AT: usize = 1;
    /// How many there are.
    pub const WORDS: usize = 2;
    /// What they are called.
    pub const NAMES: [&str; WORDS] = ["hash", "settles-at"];
}

/// The items of one kind in a shard.
#[derive(Debug, Clone, Copy, PartialEq, Eq)]
pub struct Items {
    /// Where their count stands.
    pub count: usize,
    /// Where the first one begins.
    pub first: usize,
    /// The words of each.
    pub width: usize,
}

impl Items {
    /// Where the item at `place` begins.
    #[must_use]
    pub const fn at(self, place: usize) -> usize {
        self.first + self.width * place
    }

    /// The words of the item at `place`.
    #[must_use]
    pub const fn item(self, place: usize) -> Range<usize> {
        self.at(place)..self.at(place + 1)
    }
}

/// The slots of a shard.
pub const SLOTS: Items = Items {
    count: SLOT_COUNT,
    first: HEAD_WORDS,
    width: slot::WORDS,
};

/// Where the ledger starts.
#[must_use]
pub const fn ledger(cap: usize) -> usize {
    SLOTS.at(cap)
}

/// The debts of a shard.
#[must_use]
pub const fn debts(cap: usize) -> Items {
    Items {
        count: ledger(cap),
        first: ledger(cap) + LEDGER_HEAD_WORDS,
        width: debt::WORDS,
    }
}

/// Where the ledger's cursor stands.
#[must_use]
pub const fn cursor(cap: usize) -> usize {
    ledger(cap) + 1
}

/// The places of each of the two indexes of a shard.
#[must_use]
pub const fn places(cap: usize) -> usize {
    PLACES_PER_ITEM * cap
}

/// The places of the index of the slots: they come after the debts.
#[must_use]
pub const fn slot_index(cap: usize) -> Range<usize> {
    let start = debts(cap).at(cap);
    start..start + places(cap)
}

/// The places of the index of the debts.
#[must_use]
pub const fn debt_index(cap: usize) -> Range<usize> {
    let start = slot_index(cap).end;
    start..start + places(cap)
}

/// The words of a shard.
#[must_use]
pub const fn shard_words(cap: usize) -> usize {
    debt_index(cap).end
}

/// The words of the shard of this number, in the memory.
#[must_use]
pub const fn shard(cap: usize, number: usize) -> Range<usize> {
    let start = SHARDS + number * shard_words(cap);
    start..start + shard_words(cap)
}

/// The words of a memory: up to where a further shard would start.
#[must_use]
pub const fn memory_words(shards: usize, cap: usize) -> usize {
    shard(cap, shards).start
}
