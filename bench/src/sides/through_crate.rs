//! Our library through the safe crate, as a server in Rust calls it that waits and does not ask for moments: times are `Duration`s, answers enums.

use core::time::Duration;

use limiter::{
    Class, ClassNumber, ClassTable, Debt, Decision, OwnedStore, Rate, Refusal, Settings, WhenFull,
};
use published::{Answer, Key};

use super::Store;
use crate::scenario::{Classes, MAX_WAIT, Setup};

/// A store that owns its words; and one that has classes too, for tries through the one that is named; the room of a shard, and records, which are made when
/// they are first asked for.
pub struct ThroughCrate {
    store: OwnedStore,
    classed: limiter::Store<Box<[u64]>, ClassTable>,
    named: ClassNumber,
    room: usize,
    records: Vec<Debt>,
}

/// The table of the classes.
fn table(classes: Classes) -> ClassTable {
    let class = Class::per_second(Classes::AMOUNT);
    let below = |parent| class.parent(ClassNumber::new(parent));
    let classes: Vec<Class> = classes
        .parents()
        .map(|parent| parent.map_or(class, below))
        .collect();
    ClassTable::of(&classes).expect("chains of at most eight")
}

impl Store for ThroughCrate {
    fn fresh(setup: &Setup) -> Self {
        let rate = Rate::per_second(setup.amount).burst(setup.burst);
        let mut settings = Settings::new(rate, setup.max_keys as u64).shards(setup.shards as u64);
        settings.idle = setup.idle.map(Duration::from_nanos);
        if setup.forget_debt {
            settings.when_full = WhenFull::ForgetDebt;
        }
        let classed = OwnedStore::with_classes(settings, table(setup.classes));
        Self {
            store: OwnedStore::new(settings).expect("the library accepts the settings"),
            classed: classed.expect("the library accepts the classes"),
            named: ClassNumber::new(setup.classes.named()),
            room: setup.cap(),
            records: Vec::new(),
        }
    }

    /// A new store in place of the old one.
    #[inline]
    fn set_up(&mut self) -> Answer {
        let settings = *self.store.settings();
        counted(OwnedStore::new(settings).map(|store| {
            self.store = store;
            0
        }))
    }

    #[inline]
    fn try_(&mut self, now: u64, key: Key, cost: u32) -> Answer {
        decided(self.store.try_acquire(nanos(now), its(key), cost))
    }

    #[inline]
    fn through(&mut self, now: u64, key: Key, cost: u32) -> Answer {
        let store = &mut self.classed;
        decided(store.try_acquire_through(self.named, nanos(now), its(key), cost))
    }

    #[inline]
    fn reserve(&mut self, now: u64, key: Key, cost: u32) -> Answer {
        match self
            .store
            .reserve(nanos(now), its(key), cost, nanos(MAX_WAIT))
        {
            Ok(Some(reservation)) => (0, wait(reservation.wait)),
            Ok(None) => (3, 0),
            Err(refusal) => (refusal.code(), 0),
        }
    }

    #[inline]
    fn peek(&mut self, now: u64, key: Key, cost: u32) -> Answer {
        decided(self.store.peek(nanos(now), its(key), cost))
    }

    #[inline]
    fn available(&mut self, now: u64, key: Key) -> Answer {
        counted(self.store.available(nanos(now), its(key)))
    }

    #[inline]
    fn refund(&mut self, key: Key, cost: u32) -> Answer {
        known(self.store.refund(its(key), cost))
    }

    #[inline]
    fn remove(&mut self, key: Key) -> Answer {
        known(self.store.remove(its(key)))
    }

    #[inline]
    fn length(&mut self) -> Answer {
        counted(self.store.len())
    }

    #[inline]
    fn debts(&mut self, now: u64) -> Answer {
        self.records.resize(self.room, Debt::default());
        let listed = self.store.debts(nanos(now), 0, &mut self.records);
        counted(listed.map(|listed| listed as u64))
    }
}

#[inline]
const fn its(key: Key) -> limiter::Key {
    limiter::Key::new(key.hash, key.key)
}

#[inline]
const fn nanos(time: u64) -> Duration {
    Duration::from_nanos(time)
}

#[inline]
const fn wait(time: Duration) -> u64 {
    time.as_secs() * 1_000_000_000 + time.subsec_nanos() as u64
}

#[inline]
fn decided(decision: Result<Decision, Refusal>) -> Answer {
    match decision {
        Ok(Decision::Acquired { .. }) => (0, 0),
        Ok(Decision::Retry { after, .. }) => (1, wait(after)),
        Ok(_) => (2, 0),
        Err(refusal) => (refusal.code(), 0),
    }
}

#[inline]
fn known(known: Result<bool, Refusal>) -> Answer {
    match known {
        Ok(known) => (if known { 0 } else { 3 }, 0),
        Err(refusal) => (refusal.code(), 0),
    }
}

#[inline]
fn counted(count: Result<u64, Refusal>) -> Answer {
    match count {
        Ok(count) => (0, count),
        Err(refusal) => (refusal.code(), 0),
    }
}
