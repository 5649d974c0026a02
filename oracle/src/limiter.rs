//! A limiter that answers every call by number, as document 01 does.

use core::time::Duration;
use std::sync::Arc;

use clock_lib::ManualClock;

use crate::decision::Decision;
use crate::key::Key;
use crate::layout::{self, slot};
use crate::perkey::PerKey;
use crate::refusals::{self, Memory};
use crate::settings::Settings;
use crate::shape::Shape;
use crate::store::one_shard::{LoadError, OneShard};
use crate::tally::Tally;

/// A code and a number beside it.
#[derive(Debug, Clone, Copy, PartialEq, Eq)]
pub struct Answer {
    /// 0 granted, accepted or known; 1 retry; 2 impossible; 3 none or unknown; 10 + n refused as n.
    pub code: u8,
    /// The wait in ns of a retry or a reservation, the tokens available, the tries turned away, the length, the debts listed; else 0.
    pub number: u64,
}

impl Answer {
    const fn new(code: u8, number: u64) -> Self {
        Self { code, number }
    }

    /// Granted, accepted or known, with a number.
    const fn done(number: u64) -> Self {
        Self::new(0, number)
    }

    /// Known or unknown.
    const fn known(known: bool) -> Self {
        Self::new(if known { 0 } else { 3 }, 0)
    }

    /// Refused by number.
    const fn refused(number: u8) -> Self {
        Self::new(10 + number, 0)
    }
}

impl From<Decision> for Answer {
    fn from(decision: Decision) -> Self {
        match decision {
            Decision::Acquired => Self::done(0),
            Decision::Retry { after } => Self::new(1, nanos(after)),
            Decision::Impossible => Self::new(2, 0),
        }
    }
}

type Published = PerKey<Key, Arc<ManualClock>>;

/// The published limiter with its settings, the clock that it reads, and a memory of a certain length.
///
/// After a refused set-up every call is refused with the same number, since every call repeats these refusals.
pub struct Limiter {
    settings: Settings,
    /// The words that were lent at set-up. The Rust keeps its own memory; the number is there to be refused.
    lent: u64,
    clock: Arc<ManualClock>,
    /// None after a refused set-up.
    published: Option<Published>,
    /// The counts that the published limiter lacks, shard by shard.
    tallies: Vec<Tally>,
}

impl Limiter {
    /// Set-up on `lent` words; the limiter, and whether it was accepted.
    ///
    /// # Panics
    ///
    /// When the Rust's shards or cap are not those of document 01.
    #[must_use]
    pub fn set_up(settings: Settings, lent: u64) -> (Self, Answer) {
        let mut limiter = Self {
            settings,
            lent,
            clock: Arc::new(ManualClock::new()),
            published: None,
            tallies: Vec::new(),
        };
        if let Some(number) = refusals::set_up(&limiter.settings, &limiter) {
            return (limiter, Answer::refused(number));
        }
        let published = build(&settings, Arc::clone(&limiter.clock));
        let shape = Shape::of(&settings);
        assert_eq!(
            published.shard_count() as u64,
            shape.shards,
            "the Rust's shards"
        );
        assert_eq!(
            OneShard::new(published.store(), 0, None).cap() as u64,
            shape.cap,
            "the Rust's cap"
        );
        limiter.published = Some(published);
        limiter.tallies = (0..shape.shards).map(|_| Tally::default()).collect();
        limiter.give_places();
        (limiter, Answer::done(0))
    }

    /// Set-up on as many words as the settings need.
    #[must_use]
    pub fn new(settings: Settings) -> (Self, Answer) {
        // Settings that are refused as 4 are refused before the length is looked at.
        let lent = if settings.max_keys > refusals::MOST_KEYS {
            0
        } else {
            Shape::of(&settings).words() as u64
        };
        Self::set_up(settings, lent)
    }

    /// The settings.
    #[must_use]
    pub const fn settings(&self) -> &Settings {
        &self.settings
    }

    /// Takes `cost` tokens for `key` at `now`, if they are there. A retry of a key that then has a slot came from its bucket, and counts. A key that
    /// then has none was refused for space.
    pub fn try_(&self, now: u64, key: Key, cost: u32) -> Answer {
        if let Some(number) = refusals::try_(&self.settings, self, key.hash, now) {
            return Answer::refused(number);
        }
        let (shard, tally) = self.own(&key);
        forget_unless_held(&shard, tally, &key);
        let decision = self.at(now).decision(&key, cost);
        if matches!(decision, Decision::Retry { .. }) && shard.position(&key).is_some() {
            tally.add(key);
        }
        decision.into()
    }

    /// What a try would answer, taking nothing.
    #[must_use]
    pub fn peek(&self, now: u64, key: Key, cost: u32) -> Answer {
        match refusals::peek(&self.settings, self, key.hash, now) {
            Some(number) => Answer::refused(number),
            None => self.at(now).peek(&key, cost).into(),
        }
    }

    /// The tokens that `key` has at `now`.
    #[must_use]
    pub fn available(&self, now: u64, key: Key) -> Answer {
        match refusals::available(&self.settings, self, key.hash, now) {
            Some(number) => Answer::refused(number),
            None => Answer::done(self.at(now).available(&key).into()),
        }
    }

    /// Takes `cost` tokens for `key` at `now` if their wait is at most `max_wait`.
    pub fn reserve(&self, now: u64, key: Key, cost: u32, max_wait: u64) -> Answer {
        match refusals::reserve(&self.settings, self, key.hash, now, max_wait) {
            Some(number) => Answer::refused(number),
            None => {
                let (shard, tally) = self.own(&key);
                forget_unless_held(&shard, tally, &key);
                let wait = self
                    .at(now)
                    .reserve(&key, cost, Duration::from_nanos(max_wait));
                wait.map_or(Answer::known(false), |wait| Answer::done(nanos(wait)))
            }
        }
    }

    /// How many tries of `key` its bucket answered Retry, from the call that appended its slot on; 0 for a key without a slot. The answers are those of
    /// the Rust, the count is the tally's.
    #[must_use]
    pub fn turned_away(&self, key: Key) -> Answer {
        match refusals::turned_away(&self.settings, self, key.hash) {
            Some(number) => Answer::refused(number),
            None => {
                let (shard, tally) = self.own(&key);
                let place = shard.position(&key);
                Answer::done(place.map_or(0, |_| tally.count(&key)))
            }
        }
    }

    /// Gives `cost` tokens back to `key`.
    pub fn refund(&self, key: Key, cost: u32) -> Answer {
        match refusals::refund(&self.settings, self, key.hash) {
            Some(number) => Answer::refused(number),
            None => Answer::known(self.published().refund_known(&key, cost)),
        }
    }

    /// Forgets `key` and its debt.
    pub fn remove(&self, key: Key) -> Answer {
        match refusals::remove(&self.settings, self, key.hash) {
            Some(number) => Answer::refused(number),
            None => {
                self.own(&key).1.forget(&key);
                Answer::known(self.published().remove(&key))
            }
        }
    }

    /// Forgets every key and debt.
    pub fn clear(&self) -> Answer {
        match refusals::clear(&self.settings, self) {
            Some(number) => Answer::refused(number),
            None => {
                self.tallies.iter().for_each(Tally::clear);
                self.published().clear();
                self.give_places();
                Answer::done(0)
            }
        }
    }

    /// The number of keys with a slot.
    #[must_use]
    pub fn len(&self) -> Answer {
        match refusals::length(&self.settings, self) {
            Some(number) => Answer::refused(number),
            None => Answer::done(self.published().len() as u64),
        }
    }

    /// How many debts of a shard settle after `now`, and their hashes and settling moments, if so many records are lent for them. The published limiter has
    /// no such call: these are the debts of its ledger, filtered.
    #[must_use]
    pub fn debts(&self, now: u64, shard: u64, lent: usize) -> (Answer, Vec<(u64, u64)>) {
        let refused = |number| (Answer::refused(number), Vec::new());
        if let Some(number) = refusals::debts(&self.settings, self, now, shard) {
            return refused(number);
        }
        let shard = self
            .shard(shard as usize)
            .expect("calls after a refused set-up are refused");
        let mut debts = Vec::new();
        shard.each_debt(|hash, settles_at| {
            if settles_at > now {
                debts.push((hash, settles_at));
            }
        });
        match refusals::records(lent, debts.len()) {
            Some(number) => refused(number),
            None => (Answer::done(debts.len() as u64), debts),
        }
    }

    /// The number of shards, 0 after a refused set-up.
    #[must_use]
    pub fn shards(&self) -> usize {
        self.published.as_ref().map_or(0, PerKey::shard_count)
    }

    /// One shard, if there is such a one. What is asked of it directly is not tallied.
    #[must_use]
    pub fn shard(&self, index: usize) -> Option<OneShard<'_>> {
        let published = self.published.as_ref()?;
        (index < published.shard_count())
            .then(|| OneShard::new(published.store(), index, published.config()))
    }

    /// How many slots the Rust has, 0 after a refused set-up.
    #[must_use]
    pub fn total(&self) -> u64 {
        self.published
            .as_ref()
            .map_or(0, |store| store.len() as u64)
    }

    /// The whole store as words, the total and then shard by shard; no words after a refused set-up.
    #[must_use]
    pub fn words(&self) -> Vec<u64> {
        let total = self.published.iter().map(|store| store.len() as u64);
        let shards = (0..self.shards()).filter_map(|index| self.shard_words(index));
        total.chain(shards.flatten()).collect()
    }

    /// One shard as words, with the tally in its slots, if there is such a shard.
    #[must_use]
    pub fn shard_words(&self, index: usize) -> Option<Vec<u64>> {
        let shard = self.shard(index)?;
        let mut words = shard.words();
        for place in 0..shard.slot_count() {
            let row = &mut words[layout::SLOTS.item(place)];
            row[slot::TURNED_AWAY] = self.tallies[index].word(&Key::of(row));
        }
        Some(words)
    }

    /// Replaces the store's contents by those that `words` stand for (see [`Limiter::load_shard`]).
    ///
    /// # Errors
    ///
    /// When the Rust has no such contents; shards before the one at fault are then replaced already. The Rust has no total but the slots of its shards: another
    /// one is a count at fault, and nothing has changed then.
    pub fn load(&self, words: &[u64]) -> Result<(), LoadError> {
        let shape = Shape::of(&self.settings);
        if self.published.is_none() || words.len() != shape.words() {
            return Err(LoadError::Length);
        }
        let slots = (0..shape.shards).map(|shard| u128::from(words.slot_count(shape, shard)));
        if u128::from(words.total()) != slots.sum::<u128>() {
            return Err(LoadError::Count);
        }
        (0..shape.shards)
            .try_for_each(|index| self.load_shard(index as usize, &words[shape.shard(index)]))
    }

    /// Replaces one shard's contents by those that `words` stand for. A nonzero mark is set, whatever its value, and comes back as 1. A count is tallied as
    /// it is, whatever its size.
    ///
    /// # Errors
    ///
    /// When there is no such shard, or the Rust has no such contents; nothing has changed then.
    pub fn load_shard(&self, index: usize, words: &[u64]) -> Result<(), LoadError> {
        let shard = self.shard(index).ok_or(LoadError::Length)?;
        shard.load(words)?;
        for place in 0..shard.slot_count() {
            let row = &words[layout::SLOTS.item(place)];
            self.tallies[index].load(Key::of(row), row[slot::TURNED_AWAY]);
        }
        Ok(())
    }

    /// The shard of `key` and its tally, for a call that is not refused.
    fn own(&self, key: &Key) -> (OneShard<'_>, &Tally) {
        let index = Shape::of(&self.settings).shard_of(key.hash) as usize;
        let shard = self
            .shard(index)
            .expect("calls after a refused set-up are refused");
        (shard, &self.tallies[index])
    }

    /// Gives the indexes of all shards, which are empty, their places.
    fn give_places(&self) {
        let shards = (0..self.shards()).filter_map(|index| self.shard(index));
        shards.for_each(|shard| shard.give_places());
    }

    /// The published limiter, for a call that is not refused.
    fn published(&self) -> &Published {
        self.published
            .as_ref()
            .expect("calls after a refused set-up are refused")
    }

    /// The published limiter with its clock at `now`.
    fn at(&self, now: u64) -> &Published {
        self.clock.set(now);
        self.published()
    }
}

/// The Rust's own store: its counts are never over the cap, but the length is as it was lent.
impl Memory for Limiter {
    fn length(&self) -> u64 {
        self.lent
    }

    fn total(&self) -> u64 {
        Self::total(self)
    }

    fn slot_count(&self, _shape: Shape, shard: u64) -> u64 {
        self.shard(shard as usize)
            .map_or(0, |shard| shard.slot_count() as u64)
    }

    fn debt_count(&self, _shape: Shape, shard: u64) -> u64 {
        self.shard(shard as usize)
            .map_or(0, |shard| shard.debt_count() as u64)
    }
}

/// The published limiter for settings that are not refused. An amount of 0 is how the builder is told that there is no rate.
fn build(settings: &Settings, clock: Arc<ManualClock>) -> Published {
    let builder = match settings.rate {
        None => PerKey::<Key>::builder().rate(0, Duration::ZERO),
        Some(rate) => {
            let builder =
                PerKey::<Key>::builder().rate(rate.amount, Duration::from_nanos(rate.period));
            let builder = rate
                .burst
                .into_iter()
                .fold(builder, |builder, burst| builder.burst(burst));
            rate.initial
                .into_iter()
                .fold(builder, |builder, initial| builder.initial(initial))
        }
    };
    let shards = usize::try_from(settings.shards).expect("at most 64 shards");
    builder
        .eviction(settings.eviction())
        .shards(shards)
        .clock(clock)
        .build()
}

/// Forgets the count of a key that has no slot, before a call that may give it one: the count left with the slot.
fn forget_unless_held(shard: &OneShard<'_>, tally: &Tally, key: &Key) {
    if shard.position(key).is_none() {
        tally.forget(key);
    }
}

/// The nanoseconds of a wait.
fn nanos(wait: Duration) -> u64 {
    u64::try_from(wait.as_nanos()).expect("a wait of the store fits 64 bits")
}
