//! One shard of a store, for the harness: its contents as the words of document 01, and the published parts called by
//! themselves. Times go in and out as nanoseconds.

use core::time::Duration;
use std::sync::atomic::{AtomicBool, AtomicU64, Ordering};
use std::sync::{RwLockReadGuard, RwLockWriteGuard};

use better_bucket::{BucketConfig, BucketCore, Decision};
use hashbrown::HashTable;

use super::{
    Debt, Entry, LEDGER_SCAN, ShardMap, Slot, Store, TTL_SWEEP, millis, read, restore_debt, write,
};
use crate::key::Key;
use crate::layout::{self, Items, debt, slot};

/// A shard of a store.
pub struct OneShard<'a> {
    store: &'a Store<Key>,
    index: usize,
    /// None for a closed limiter.
    config: Option<BucketConfig>,
}

/// Words that no contents of the Rust's shard stand for.
#[derive(Debug, Clone, Copy, PartialEq, Eq)]
pub enum LoadError {
    /// The words are not as many as the memory, or the shard, has.
    Length,
    /// A count is over the cap.
    Count,
    /// Two slots have the same hash and key.
    SameIdentity,
    /// Two debts have the same hash.
    SameDebt,
    /// A word past a count is not 0.
    PastCount,
    /// An index does not name every item just once, on its walk, and nothing else.
    Index,
}

/// What is done with a bucket: the published closures of `decide` and `reserve`.
#[derive(Debug, Clone, Copy, PartialEq, Eq)]
pub enum Op {
    /// Take this many tokens if they are there.
    Try(u32),
    /// Take this many tokens if their wait, in ns, is at most the second number.
    Reserve(u32, u64),
}

/// What came of it.
#[derive(Debug, Clone, Copy, PartialEq, Eq)]
pub enum Outcome {
    /// Granted, usable after this wait.
    Granted(u64),
    /// A try denied by the bucket, with its wait.
    Denied(u64),
    /// A reservation that would wait too long.
    TooLong,
    /// Refused for space, with the wait until there is room.
    NoSpace(u64),
}

/// The contents as words.
impl<'a> OneShard<'a> {
    /// Shard `index` of `store`.
    ///
    /// # Panics
    ///
    /// When the store has no such shard.
    pub(crate) fn new(store: &'a Store<Key>, index: usize, config: Option<BucketConfig>) -> Self {
        assert!(
            index < store.shards.len(),
            "the store has {} shards",
            store.shards.len()
        );
        Self {
            store,
            index,
            config,
        }
    }

    /// The most slots of the shard, and the most debts.
    #[must_use]
    pub fn cap(&self) -> usize {
        self.store.per_shard_cap
    }

    /// The number of slots.
    #[must_use]
    pub fn slot_count(&self) -> usize {
        self.read().slots.len()
    }

    /// The number of debts.
    #[must_use]
    pub fn debt_count(&self) -> usize {
        self.read().ledger.debts.len()
    }

    /// Shows every debt, in the order of the ledger: its hash and its settling moment.
    pub fn each_debt(&self, mut show: impl FnMut(u64, u64)) {
        for debt in &self.read().ledger.debts {
            show(debt.hash, nanos(debt.settles_at));
        }
    }

    /// Gives the tables of an empty shard the places of its indexes, so that they can be shown. The published code knows of none.
    pub(crate) fn give_places(&self) {
        let (mut map, places) = (self.write(), layout::places(self.cap()));
        map.index = HashTable::with_places(places);
        map.ledger.index = HashTable::with_places(places);
    }

    /// The contents as words, 0 past the counts. The Rust has no count of tries turned away: that word is 0 here, and the limiter fills it in.
    ///
    /// # Panics
    ///
    /// When direct calls have put more into the shard than its cap, or a moment past 64 bits.
    pub(crate) fn words(&self) -> Vec<u64> {
        let (map, cap) = (self.read(), self.cap());
        let debts = &map.ledger.debts;
        assert!(
            map.slots.len() <= cap && debts.len() <= cap,
            "the shard holds more than its cap"
        );
        let mut words = vec![0; layout::shard_words(cap)];
        words[layout::HAND] = map.hand as u64;
        words[layout::SWEEP] = map.sweep as u64;
        words[layout::cursor(cap)] = map.ledger.cursor as u64;
        put(&mut words, layout::SLOTS, map.slots.iter().map(slot_words));
        put(&mut words, layout::debts(cap), debts.iter().map(debt_words));
        put_index(&mut words[layout::slot_index(cap)], &map.index);
        put_index(&mut words[layout::debt_index(cap)], &map.ledger.index);
        words
    }

    /// Replaces the contents by those that `words` stand for. A nonzero mark is set, whatever its value, and comes back as 1. The counts of tries turned
    /// away are the limiter's to keep.
    ///
    /// # Errors
    ///
    /// When the Rust has no such contents; the shard then stays as it was.
    pub(crate) fn load(&self, words: &[u64]) -> Result<(), LoadError> {
        let cap = self.cap();
        if words.len() != layout::shard_words(cap) {
            return Err(LoadError::Length);
        }
        let mut map = ShardMap::new();
        map.hand = place(words[layout::HAND]);
        map.sweep = place(words[layout::SWEEP]);
        for row in held(words, layout::SLOTS, cap)? {
            let key = Key::of(row);
            if map.position(key.hash, &key).is_some() {
                return Err(LoadError::SameIdentity);
            }
            map.insert(key.hash, key, self.entry(row));
        }
        map.ledger.cursor = place(words[layout::cursor(cap)]);
        for row in held(words, layout::debts(cap), cap)? {
            let debt = Debt {
                hash: row[debt::HASH],
                settles_at: Duration::from_nanos(row[debt::SETTLES_AT]),
            };
            if map.ledger.position(debt.hash).is_some() {
                return Err(LoadError::SameDebt);
            }
            // Without a cap, and with a hash that is not there, recording appends and does nothing else.
            let _appended = map.ledger.record(debt, Duration::ZERO, usize::MAX, false);
        }
        let slots: Vec<u64> = map.slots.iter().map(|slot| slot.hash).collect();
        map.index = index(&words[layout::slot_index(cap)], &slots)?;
        let debts: Vec<u64> = map.ledger.debts.iter().map(|debt| debt.hash).collect();
        map.ledger.index = index(&words[layout::debt_index(cap)], &debts)?;
        *self.write() = map;
        Ok(())
    }

    /// The entry that a slot's words stand for. A closed limiter has no bucket configuration and never looks into a bucket;
    /// there any configuration will do.
    fn entry(&self, row: &[u64]) -> Entry {
        let any = || {
            BucketConfig::new(1, 1, Duration::from_nanos(1), 1).expect("the smallest configuration")
        };
        let config = self.config.unwrap_or_else(any);
        Entry {
            bucket: BucketCore::from_words(config, row[slot::SHORTFALL], row[slot::STAMP]),
            referenced: AtomicBool::new(row[slot::MARK] != 0),
            last_seen_ms: AtomicU64::new(row[slot::LAST_SEEN]),
        }
    }

    fn read(&self) -> RwLockReadGuard<'_, ShardMap<Key>> {
        read(&self.store.shards[self.index].map)
    }

    fn write(&self) -> RwLockWriteGuard<'_, ShardMap<Key>> {
        write(&self.store.shards[self.index].map)
    }

    /// The bucket configuration.
    ///
    /// # Panics
    ///
    /// When the limiter is closed: the published code makes no such call then.
    fn rate(&self) -> BucketConfig {
        self.config.expect("a closed limiter has no buckets")
    }
}

/// The published parts of the ledger and of the shard, called by themselves. A place is a number from 0.
impl OneShard<'_> {
    /// `Ledger::position`: where the debt of `hash` is.
    #[must_use]
    pub fn debt_position(&self, hash: u64) -> Option<usize> {
        self.read().ledger.position(hash)
    }

    /// `Ledger::take`: takes the debt of `hash` out and gives when it settles.
    pub fn take(&self, hash: u64) -> Option<u64> {
        self.write().ledger.take(hash).map(nanos)
    }

    /// `Ledger::record` at the shard's cap. `Err` is the wait when there is no room.
    ///
    /// # Errors
    ///
    /// When the ledger is full of unsettled debts and may not forget one.
    pub fn record(&self, hash: u64, settles_at: u64, now: u64, forget: bool) -> Result<(), u64> {
        let debt = Debt {
            hash,
            settles_at: Duration::from_nanos(settles_at),
        };
        self.write()
            .ledger
            .record(debt, Duration::from_nanos(now), self.cap(), forget)
            .map_err(nanos)
    }

    /// `Ledger::sweep` with the published number of looks.
    pub fn sweep(&self, now: u64) {
        self.write()
            .ledger
            .sweep(Duration::from_nanos(now), LEDGER_SCAN);
    }

    /// `Ledger::pay_down`; whether there was a debt.
    pub fn pay_down(&self, hash: u64, cost: u32) -> bool {
        self.write().ledger.pay_down(hash, cost, self.rate())
    }

    /// `Ledger::remove_at`; the hash and the settling moment of the debt that was there.
    pub fn remove_debt_at(&self, place: usize) -> Option<(u64, u64)> {
        self.write()
            .ledger
            .remove_at(place)
            .map(|debt| (debt.hash, nanos(debt.settles_at)))
    }

    /// `ShardMap::position`: where the slot of `key` is.
    #[must_use]
    pub fn position(&self, key: &Key) -> Option<usize> {
        self.read().position(key.hash, key)
    }

    /// `ShardMap::insert` of a new entry with this bucket, last seen at `now`. The key must be absent and the shard below its cap.
    pub fn insert(&self, key: Key, shortfall: u64, stamp: u64, now: u64) {
        let bucket = BucketCore::from_words(self.rate(), shortfall, stamp);
        let entry = Entry::new(bucket, millis(Duration::from_nanos(now)));
        self.write().insert(key.hash, key, entry);
    }

    /// `ShardMap::remove_at`; the key of the slot that was there.
    pub fn remove_at(&self, place: usize) -> Option<Key> {
        self.write().remove_at(place).map(|slot| slot.key)
    }

    /// `Entry::touch` of the slot at `place`; whether there is one.
    pub fn touch(&self, place: usize, now: u64) -> bool {
        let now_ms = millis(Duration::from_nanos(now));
        let map = self.read();
        let slot = map.slots.get(place);
        slot.inspect(|slot| slot.entry.touch(now_ms, self.store.idle_ttl_ms.is_some()))
            .is_some()
    }

    /// `ShardMap::sweep_idle` with the published number of looks, or nothing if no idle time is set; how many slots went.
    /// Not for a closed limiter, which has no buckets to look at.
    pub fn sweep_idle(&self, now: u64) -> usize {
        let now = Duration::from_nanos(now);
        let sweep = |limit| self.write().sweep_idle(now, millis(now), limit, TTL_SWEEP);
        self.store.idle_ttl_ms.map_or(0, sweep)
    }

    /// `ShardMap::evict_one` at the shard's cap. `Err` is the wait when nothing could go. Not for a closed limiter.
    ///
    /// # Errors
    ///
    /// When no slot looked at is full and the ledger has no room either.
    pub fn evict_one(&self, now: u64, forget: bool) -> Result<(), u64> {
        self.write()
            .evict_one(Duration::from_nanos(now), self.cap(), forget)
            .map_err(nanos)
    }

    /// `restore_debt` on a fresh bucket; the bucket's shortfall and stamp.
    #[must_use]
    pub fn restored(&self, now: u64, settles_at: u64) -> (u64, u64) {
        let now = Duration::from_nanos(now);
        let bucket = BucketCore::new(self.rate(), now);
        restore_debt(&bucket, self.rate(), now, Duration::from_nanos(settles_at));
        bucket.words()
    }
}

/// The store's operations on keys of this shard, with neither the refusals nor the rules of perkey.rs in front.
impl OneShard<'_> {
    /// `Store::with_or_insert`, then `op` on the bucket.
    pub fn run(&self, key: &Key, now: u64, op: Op) -> Outcome {
        self.own(key);
        let now = Duration::from_nanos(now);
        let ran = self
            .store
            .with_or_insert(key, now, self.rate(), |bucket| match op {
                Op::Try(cost) => match bucket.acquire_at(cost, now) {
                    Decision::Denied { retry_after } => Outcome::Denied(nanos(retry_after)),
                    _ => Outcome::Granted(0),
                },
                Op::Reserve(cost, max_wait) => bucket
                    .reserve_at(cost, Duration::from_nanos(max_wait), now)
                    .map_or(Outcome::TooLong, |wait| Outcome::Granted(nanos(wait))),
            });
        ran.unwrap_or_else(|wait| Outcome::NoSpace(nanos(wait)))
    }

    /// `Store::view`: the shortfall and stamp of the bucket that the key has, or would be given.
    #[must_use]
    pub fn view(&self, key: &Key, now: u64) -> (u64, u64) {
        self.own(key);
        self.store.view(
            key,
            Duration::from_nanos(now),
            self.rate(),
            BucketCore::words,
        )
    }

    /// `Store::refund`; whether the key was known.
    pub fn refund(&self, key: &Key, cost: u32) -> bool {
        self.own(key);
        self.store.refund(key, cost, self.rate())
    }

    /// `Store::remove`; whether the key was known.
    pub fn remove(&self, key: &Key) -> bool {
        self.own(key);
        self.store.remove(key)
    }

    /// `Store::make_room`. `Err` is the wait when there is none.
    ///
    /// # Errors
    ///
    /// When the shard is full and nothing could be evicted.
    pub fn make_room(&self, now: u64) -> Result<(), u64> {
        let now = Duration::from_nanos(now);
        self.store
            .make_room(&mut self.write(), now, millis(now))
            .map_err(nanos)
    }

    /// # Panics
    ///
    /// When the key belongs to another shard.
    fn own(&self, key: &Key) {
        assert!(
            core::ptr::eq(
                self.store.shard(key.hash),
                &raw const self.store.shards[self.index]
            ),
            "the key belongs to another shard"
        );
    }
}

/// A slot's words, in the order of [`slot::NAMES`]. The last is the count that the Rust lacks.
fn slot_words(slot: &Slot<Key>) -> [u64; slot::WORDS] {
    let (shortfall, stamp) = slot.entry.bucket.words();
    let mark = u64::from(slot.entry.referenced.load(Ordering::Relaxed));
    let last_seen = slot.entry.last_seen_ms.load(Ordering::Relaxed);
    [
        slot.hash,
        slot.key.key,
        shortfall,
        stamp,
        mark,
        last_seen,
        0,
    ]
}

/// A debt's words, in the order of [`debt::NAMES`].
fn debt_words(debt: &Debt) -> [u64; debt::WORDS] {
    [debt.hash, nanos(debt.settles_at)]
}

/// Writes items and their count.
fn put<const N: usize>(words: &mut [u64], items: Items, rows: impl Iterator<Item = [u64; N]>) {
    for (place, row) in rows.enumerate() {
        words[items.item(place)].copy_from_slice(&row);
        words[items.count] += 1;
    }
}

/// Writes the places of an index: 0, or the number of an item plus 1.
fn put_index(words: &mut [u64], index: &HashTable<u32>) {
    for (word, number) in words.iter_mut().zip(index.places()) {
        *word = number.map_or(0, |&number| u64::from(number) + 1);
    }
}

/// The index that these places are of items with these hashes, if it names each just once, on its walk, and nothing else.
fn index(places: &[u64], hashes: &[u64]) -> Result<HashTable<u32>, LoadError> {
    let mut named = vec![false; hashes.len()];
    let mut rows = Vec::new();
    for &word in places {
        rows.push(row(word, hashes, &mut named)?);
    }
    let all = named.iter().all(|&named| named);
    let table = all.then(|| HashTable::placed(rows)).flatten();
    table.ok_or(LoadError::Index)
}

/// What a place of an index has: nothing, or a number with its hash. The number is that of an item which no place before has named.
fn row(word: u64, hashes: &[u64], named: &mut [bool]) -> Result<Option<(u64, u32)>, LoadError> {
    let Some(number) = word.checked_sub(1) else {
        return Ok(None);
    };
    let item = usize::try_from(number).map_err(|_| LoadError::Index)?;
    let new = named.get_mut(item).ok_or(LoadError::Index)?;
    if core::mem::replace(new, true) {
        return Err(LoadError::Index);
    }
    let number = u32::try_from(item).map_err(|_| LoadError::Index)?;
    Ok(Some((hashes[item], number)))
}

/// The items that are held, each its words, if their count is at most the cap and the words past them are 0.
fn held(
    words: &[u64],
    items: Items,
    cap: usize,
) -> Result<impl Iterator<Item = &[u64]>, LoadError> {
    let count = usize::try_from(words[items.count])
        .ok()
        .filter(|&count| count <= cap)
        .ok_or(LoadError::Count)?;
    let rest = &words[items.at(count)..items.at(cap)];
    if rest.iter().any(|&word| word != 0) {
        return Err(LoadError::PastCount);
    }
    Ok((0..count).map(move |place| &words[items.item(place)]))
}

/// A hand, sweep or cursor, of whatever size.
fn place(word: u64) -> usize {
    usize::try_from(word).expect("the oracle is built for 64 bits")
}

/// The nanoseconds of a time.
fn nanos(time: Duration) -> u64 {
    u64::try_from(time.as_nanos()).expect("a time of the store fits 64 bits")
}
