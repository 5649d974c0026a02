//! Random settings, keys, moments and calls: how a trace goes.

mod aside;
mod by_address;
mod calls;
mod classes;
mod contents;
mod damage;
mod domain;
mod indexes;
mod lists;
mod tables;
mod time;

use std::rc::Rc;

use oracle::{Key, Rate, Settings, Shape, WhenFull};

use crate::random::Random;
pub use aside::Aside;
pub use by_address::{addresses, no_address};
use domain::{CROWDED, SMALL, Sizes, idle, keys, keys_of, rate, slow_rate, start};
pub use domain::{LARGE, RAISED};
use tables::Rates;

const MS: u64 = 1_000_000;
const SECOND: u64 = 1_000_000_000;

/// How a trace goes: settings, the keys that it names, and how time passes.
pub struct Plan {
    pub settings: Settings,
    pub shape: Shape,
    /// The words of the table of classes.
    table: Rc<[u64]>,
    /// So many of a hundred tries go through a class.
    through: u64,
    keys: Vec<Key>,
    /// Names the keys one after another rather than at random.
    in_turn: bool,
    named: usize,
    spans: Spans,
    burst: u64,
    now: u64,
    /// 0: time hardly passes .. 3: it jumps.
    pace: u64,
    /// In so many of a hundred steps time goes back.
    back: u64,
    /// 0: costs of 1 .. 2: whole bursts.
    spend: u64,
    /// In so many of a hundred calls the call is a try or a reservation.
    requests: u64,
    /// The call before was a clear.
    cleared: bool,
    /// See [`Plan::layered`].
    layered: bool,
    /// See [`Plan::large`]: time stands still until slots and ledger can be full, and there is no clear.
    large: bool,
}

/// Spans of time that a rate and an idle time fix, in ns.
struct Spans {
    period: u64,
    /// What a token takes.
    token: u64,
    /// What an empty bucket takes to be full.
    full: u64,
    /// The idle limit.
    limit: u64,
}

/// The burst that a rate has.
fn burst(rate: &Rate) -> u64 {
    rate.burst.unwrap_or(rate.amount).into()
}

/// The time that an empty bucket of a rate takes to be full.
fn time_to_full(rate: &Rate) -> u64 {
    let parts = u128::from(burst(rate)) * u128::from(rate.period);
    u64::try_from(parts.div_ceil(rate.amount.into())).expect("the time to full fits 64 bits")
}

impl Spans {
    fn of(rate: &Rate, idle: Option<u64>) -> Self {
        let full = time_to_full(rate);
        Self {
            period: rate.period,
            token: rate.period.div_ceil(rate.amount.into()),
            full,
            limit: (idle.unwrap_or(0).max(full).div_ceil(MS) + 1).saturating_mul(MS),
        }
    }
}

impl Plan {
    /// A plan over a small shape; half of them with classes.
    pub fn small(random: &mut Random) -> Self {
        let sizes = random.pick(&SMALL);
        let closed = random.chance(6);
        let plan = Self::new(random, sizes, closed);
        if random.chance(50) {
            return plan;
        }
        let rates = random.pick(&[Rates::Generous, Rates::Tight, Rates::Tight, Rates::Mixed]);
        let through = random.pick(&[0, 30, 70, 100]);
        plan.with_table(random, rates, through)
    }

    /// A plan over a given shape, without classes.
    pub fn new(random: &mut Random, sizes: Sizes, closed: bool) -> Self {
        let rate = rate(random);
        Self::with_rate(random, sizes, closed, rate)
    }

    /// A plan over a given shape and rate.
    fn with_rate(random: &mut Random, (max_keys, shards): Sizes, closed: bool, rate: Rate) -> Self {
        let idle = idle(random, time_to_full(&rate));
        let settings = Settings {
            rate: (!closed).then_some(rate),
            max_keys,
            shards,
            idle,
            when_full: random.pick(&[
                WhenFull::RefuseNew,
                WhenFull::RefuseNew,
                WhenFull::ForgetDebt,
            ]),
        };
        let shape = Shape::of(&settings);
        let in_turn = shape.cap > 100 || random.chance(15);
        Self {
            settings,
            shape,
            table: Rc::new([]),
            through: 0,
            keys: keys(random, shape),
            in_turn,
            named: 0,
            spans: Spans::of(&rate, idle),
            burst: burst(&rate),
            now: start(random),
            pace: random.below(4),
            back: random.pick(&[0, 0, 2, 10]),
            spend: random.below(3),
            requests: if closed {
                30
            } else {
                random.pick(&[60, 75, 90])
            },
            cleared: false,
            layered: false,
            large: false,
        }
    }

    /// A plan under which shard and ledger fill up: one key after another, high costs, and time hardly passes. Some have classes, through which a few tries go.
    pub fn crowded(random: &mut Random) -> Self {
        let sizes = random.pick(&CROWDED);
        let plan = Self::new(random, sizes, false).crowd(random);
        if random.chance(60) {
            return plan;
        }
        let through = random.pick(&[5, 20]);
        plan.with_table(random, Rates::Tight, through)
    }

    /// The same over a large shape, with buckets that take long to be full, so that the ledger fills up in some thousand calls. There are classes, which no
    /// call asks.
    pub fn large(random: &mut Random, sizes: Sizes) -> Self {
        let rate = slow_rate(random);
        let plan = Self::with_rate(random, sizes, false, rate).crowd(random);
        let plan = plan.with_table(random, Rates::Mixed, 0);
        Self {
            large: true,
            ..plan
        }
    }

    /// The same over a shape that the shards were raised for, with a given rule when full, and keys of one shard.
    pub fn raised(random: &mut Random, sizes: Sizes, when_full: WhenFull) -> Self {
        let mut plan = Self::large(random, sizes);
        let shard = random.below(plan.shape.shards);
        plan.settings.when_full = when_full;
        plan.keys = keys_of(random, plan.shape, &[shard]);
        plan
    }

    fn crowd(mut self, random: &mut Random) -> Self {
        (self.in_turn, self.pace, self.spend, self.requests) = (true, 0, random.within(1, 2), 97);
        self
    }

    /// A crowded plan in which a shard's worth of keys owes little and the next owes much, and so on: then the ledger holds debts that
    /// settle soon while no slot gets full.
    pub fn layered(random: &mut Random) -> Self {
        let sizes = random.pick(&[(33, 1), (40, 1), (66, 2), (20, 1)]);
        let rate = slow_rate(random);
        Self {
            layered: true,
            pace: 0,
            requests: 97,
            ..Self::with_rate(random, sizes, false, rate)
        }
    }
}
