//! A slot: its bucket, its mark and its idle stamp.

use oracle::Key;
use oracle::layout::slot;

use super::bucket::{Bucket, BucketConfig};
use super::settings::millis;
use crate::branches::{Branch, Hits};

/// The words of a slot.
pub struct Entry<'a> {
    pub words: &'a mut [u64],
    pub hits: &'a mut Hits,
}

/// The words of a new key's slot: the mark clear, and seen now.
pub fn new_slot(key: Key, bucket: Bucket, now: u64) -> [u64; slot::WORDS] {
    let [shortfall, stamp] = bucket.words();
    let mut words = [0; slot::WORDS];
    words[slot::HASH] = key.hash;
    words[slot::KEY] = key.key;
    words[slot::SHORTFALL] = shortfall;
    words[slot::STAMP] = stamp;
    words[slot::LAST_SEEN] = millis(now);
    words
}

impl Entry<'_> {
    /// A touch: the mark is set, and with an idle time the idle stamp raised to now's.
    pub fn touch(&mut self, now: u64, track_idle: bool) {
        let marked = self.words[slot::MARK] != 0;
        self.hits
            .either(marked, (Branch::MarkThere, Branch::MarkSet));
        self.words[slot::MARK] = 1;
        if !track_idle {
            self.hits.hit(Branch::SeenUntracked);
            return;
        }
        let seen = &mut self.words[slot::LAST_SEEN];
        self.hits
            .either(*seen < millis(now), (Branch::SeenRaised, Branch::SeenKept));
        *seen = (*seen).max(millis(now));
    }

    /// Reads the mark, and clears it.
    pub fn take_mark(&mut self) -> bool {
        core::mem::take(&mut self.words[slot::MARK]) != 0
    }

    /// Whether it was idle for the limit.
    pub fn is_expired(&self, now: u64, ttl_ms: u64) -> bool {
        millis(now).saturating_sub(self.words[slot::LAST_SEEN]) >= ttl_ms
    }

    /// The bucket as it stands now.
    pub fn bucket(&mut self, config: BucketConfig, now: u64) -> Bucket {
        let stored = [self.words[slot::SHORTFALL], self.words[slot::STAMP]];
        Bucket::at(config, stored, now, self.hits)
    }

    /// Keeps a bucket.
    pub fn store(&mut self, bucket: Bucket) {
        [self.words[slot::SHORTFALL], self.words[slot::STAMP]] = bucket.words();
    }

    /// Gives tokens back.
    pub fn refund(&mut self, config: BucketConfig, cost: u32) {
        let shortfall = &mut self.words[slot::SHORTFALL];
        *shortfall = config.refunded(*shortfall, cost);
        let full = *shortfall == 0;
        self.hits
            .either(full, (Branch::RefundSlotFull, Branch::RefundSlot));
    }
}
