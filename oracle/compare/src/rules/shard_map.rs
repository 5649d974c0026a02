//! A shard: its slots, and its ledger.

use oracle::Key;
use oracle::layout::{self, slot};

use super::bucket::{Bucket, BucketConfig};
use super::entry::{self, Entry};
use super::ledger::Ledger;
use super::rows::{Gap, Rows, SweepBranches};
use super::settings::TTL_SWEEP;
use crate::branches::{Branch, Hits};

/// One shard's words, lent for a call.
pub struct ShardMap<'a> {
    pub words: &'a mut [u64],
    pub cap: usize,
    pub hits: &'a mut Hits,
}

const IDLE_SWEEP: SweepBranches = SweepBranches {
    none: Branch::IdleNoSlots,
    emptied: Branch::IdleEmptied,
    round: Branch::IdleRound,
    gone: (Branch::IdleGoneLast, Branch::IdleGoneSwap),
};

impl ShardMap<'_> {
    /// The slots.
    pub fn slots(&mut self) -> Rows<'_> {
        Rows {
            words: self.words,
            items: layout::SLOTS,
            index: layout::slot_index(self.cap),
            hits: self.hits,
        }
    }

    /// The ledger.
    pub fn ledger(&mut self) -> Ledger<'_> {
        Ledger {
            words: self.words,
            cap: self.cap,
            hits: self.hits,
        }
    }

    /// The slot at a place.
    pub fn entry(&mut self, place: usize) -> Entry<'_> {
        Entry {
            words: &mut self.words[layout::SLOTS.item(place)],
            hits: self.hits,
        }
    }

    /// The place of a key, by its hash and the key itself.
    pub fn position(&mut self, key: Key) -> Option<usize> {
        let is_key = |slot: &[u64]| slot[slot::HASH] == key.hash && slot[slot::KEY] == key.key;
        self.slots().position(key.hash, is_key)
    }

    /// Whether any slot has this hash.
    pub fn has_hash(&mut self, hash: u64) -> bool {
        self.slots().any(|slot| slot[slot::HASH] == hash)
    }

    /// Adds a new key's slot, last; its place.
    pub fn insert(&mut self, key: Key, bucket: Bucket, now: u64) -> usize {
        let place = self.slots().count();
        self.slots().push(&entry::new_slot(key, bucket, now));
        place
    }

    /// The idle sweep: slots that were idle for the limit go if they are full.
    pub fn sweep_idle(&mut self, config: BucketConfig, now: u64, ttl_ms: u64) {
        let goes = |words: &mut [u64], hits: &mut Hits| {
            let mut entry = Entry { words, hits };
            let expired = entry.is_expired(now, ttl_ms);
            let goes = expired && entry.bucket(config, now).is_full();
            if !goes {
                hits.either(expired, (Branch::IdleOwing, Branch::IdleYoung));
            }
            goes
        };
        self.slots()
            .sweep(layout::SWEEP, TTL_SWEEP, &IDLE_SWEEP, goes);
    }

    /// Forgets a key: its slot, and the debt of its hash; whether there was either.
    pub fn remove(&mut self, key: Key) -> bool {
        let slot = self
            .position(key)
            .map(|place| self.slots().remove_at(place));
        let debt = self.ledger().remove(key.hash);
        if let Some(gap) = slot {
            self.hits.either(
                gap == Gap::Last,
                (Branch::RemoveSlotLast, Branch::RemoveSlotSwap),
            );
        }
        self.hits.hit(match (slot, debt) {
            (Some(_), Some(_)) => Branch::RemoveBoth,
            (Some(_), None) => Branch::RemoveSlot,
            (None, Some(_)) => Branch::RemoveDebt,
            (None, None) => Branch::RemoveUnknown,
        });
        slot.is_some() || debt.is_some()
    }
}
