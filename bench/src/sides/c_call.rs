//! Our library over its C interface, as limiter-sys declares it.

use core::ptr::read_volatile;

use limiter_sys::debts::{self, LimiterDebt};
use limiter_sys::{LimiterClass, LimiterReply, LimiterSettings, classes, limiter_words, slices};
use published::{Answer, Key};

use super::Store;
use crate::scenario::{Classes, MAX_WAIT, Setup};

/// Settings, the words of the table of classes, the class that is named, and the words lent to the library; the room of a shard, and records, which are made
/// when they are first asked for.
pub struct CCall {
    settings: LimiterSettings,
    table: Vec<u64>,
    named: u64,
    words: Vec<u64>,
    room: usize,
    records: Vec<LimiterDebt>,
}

/// The words of the table.
fn table(classes: Classes) -> Vec<u64> {
    let class = |parent: Option<u64>| LimiterClass {
        amount: Classes::AMOUNT.into(),
        period: 1_000_000_000,
        has_burst: 0,
        burst: 0,
        has_parent: parent.is_some().into(),
        parent: parent.unwrap_or(0),
    };
    let parents = classes.parents();
    parents.flat_map(|parent| class(parent).words()).collect()
}

impl Store for CCall {
    fn fresh(setup: &Setup) -> Self {
        let settings = LimiterSettings {
            period: 1_000_000_000,
            max_keys: setup.max_keys as u64,
            shards: setup.shards as u64,
            idle: setup.idle.unwrap_or(0),
            amount: setup.amount,
            has_burst: 1,
            burst: setup.burst,
            has_idle: u32::from(setup.idle.is_some()),
            forget_debt: u32::from(setup.forget_debt),
            classes: setup.classes.count as u32,
            ..LimiterSettings::default()
        };
        let mut side = Self {
            settings,
            table: table(setup.classes),
            named: setup.classes.named(),
            words: vec![0; limiter_words(settings) as usize],
            room: setup.cap(),
            records: Vec::new(),
        };
        let accepted = if side.table.is_empty() {
            side.set_up()
        } else {
            answer(classes::set_up(settings, &side.table, &mut side.words))
        };
        assert_eq!(accepted.0, 0, "the library accepts the settings");
        side
    }

    #[inline]
    fn set_up(&mut self) -> Answer {
        answer(slices::set_up(self.settings, &mut self.words))
    }

    #[inline]
    fn try_(&mut self, now: u64, key: Key, cost: u32) -> Answer {
        let (settings, words) = (self.settings, &mut self.words);
        answer(slices::try_acquire(
            settings, words, now, key.hash, key.key, cost,
        ))
    }

    #[inline]
    fn through(&mut self, now: u64, key: Key, cost: u32) -> Answer {
        let (settings, table, words) = (self.settings, &self.table, &mut self.words);
        answer(classes::try_acquire(
            settings, table, words, now, key.hash, key.key, self.named, cost,
        ))
    }

    #[inline]
    fn reserve(&mut self, now: u64, key: Key, cost: u32) -> Answer {
        let (settings, words) = (self.settings, &mut self.words);
        answer(slices::reserve(
            settings, words, now, key.hash, key.key, cost, MAX_WAIT,
        ))
    }

    #[inline]
    fn peek(&mut self, now: u64, key: Key, cost: u32) -> Answer {
        let (settings, words) = (self.settings, &self.words);
        answer(slices::peek(settings, words, now, key.hash, key.key, cost))
    }

    #[inline]
    fn available(&mut self, now: u64, key: Key) -> Answer {
        let (settings, words) = (self.settings, &self.words);
        answer(slices::available(settings, words, now, key.hash, key.key))
    }

    #[inline]
    fn refund(&mut self, key: Key, cost: u32) -> Answer {
        let (settings, words) = (self.settings, &mut self.words);
        answer(slices::refund(settings, words, key.hash, key.key, cost))
    }

    #[inline]
    fn remove(&mut self, key: Key) -> Answer {
        let (settings, words) = (self.settings, &mut self.words);
        answer(slices::remove(settings, words, key.hash, key.key))
    }

    #[inline]
    fn length(&mut self) -> Answer {
        answer(slices::length(self.settings, &self.words))
    }

    #[inline]
    fn debts(&mut self, now: u64) -> Answer {
        self.records.resize(self.room, LimiterDebt::default());
        let (settings, records) = (self.settings, &mut self.records);
        answer(debts::list(settings, &self.words, now, 0, records))
    }
}

/// The library works out and writes a moment too. Nobody reads it here: the Rust has none. Code and number are read one by one. Else the compiler reads both at
/// once, to add them up, and that read can wait for the library's two writes, which is no part of the call.
#[inline]
fn answer(reply: LimiterReply) -> Answer {
    // SAFETY: both are references.
    unsafe {
        (
            read_volatile(&raw const reply.code),
            read_volatile(&raw const reply.number),
        )
    }
}
