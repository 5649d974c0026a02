//! Calls with settings, words and arguments of any content.

use oracle::layout;
use oracle::refusals::{LATEST_MOMENT, LONGEST_PERIOD, LONGEST_WAIT, MOST_KEYS, MOST_SHARDS};

use super::damage::{damage, miscount};
use super::domain::rate;
use super::tables::{self, Rates};
use super::{LARGE, Plan, SMALL, indexes};
use crate::call::Call;
use crate::given::Given;
use crate::library::{self, RawSettings};
use crate::random::Random;
use crate::rules::classes::BUCKET_WORDS;

/// A call with any settings and table on any words.
pub struct Aside {
    pub given: Given,
    pub words: Vec<u64>,
    pub call: Call,
}

impl Aside {
    /// Settings, words and arguments of any content, mostly near what is accepted.
    pub fn any(random: &mut Random) -> Self {
        let sizes = if random.below(200) == 0 {
            random.pick(&LARGE)
        } else {
            random.pick(&SMALL[..13])
        };
        let closed = random.chance(10);
        let mut plan = Plan::new(random, sizes, closed);
        if random.chance(70) {
            plan = plan.with_any_table(random);
        }
        let mut words = match random.below(4) {
            0 => vec![0; plan.shape.words() + plan.classes() * BUCKET_WORDS],
            _ => plan.contents(random),
        };
        damage(random, &mut words, plan.shape, plan.now);
        plan.damage_buckets(random, &mut words);
        if random.chance(60) {
            indexes::damage(random, &mut words, plan.shape);
        }
        plan.pace = 0;
        let call = plan.any_call(random, &words);
        let mut aside = Self {
            given: plan.given(random, &call),
            words,
            call,
        };
        if random.chance(40) {
            aside.spoil(random);
        }
        if random.chance(2) {
            aside
                .words
                .iter_mut()
                .for_each(|word| *word = random.word());
        }
        aside
    }

    /// A call of a trace on damaged words.
    pub fn damaged(random: &mut Random, plan: &mut Plan, words: &[u64]) -> Self {
        let call = plan.call(random, words);
        Self::beside(random, plan, words, call)
    }

    /// A call of a trace on these words, beside the others.
    pub fn beside(random: &mut Random, plan: &mut Plan, words: &[u64], call: Call) -> Self {
        Self {
            given: plan.given(random, &call),
            words: words.to_vec(),
            call,
        }
    }

    /// A call that differs from a sound one on `words` in one or more things, most of which are refused.
    pub fn wrong(random: &mut Random, plan: &mut Plan, words: &[u64]) -> Self {
        let call = plan.any_call(random, words);
        let mut aside = Self {
            given: plan.given(random, &call),
            words: words.to_vec(),
            call,
        };
        aside.spoil(random);
        aside
    }

    /// Makes one thing wrong, or several.
    fn spoil(&mut self, random: &mut Random) {
        let times = random.pick(&[1, 1, 1, 2, 3, 6]);
        for _ in 0..times {
            self.spoil_one(random);
        }
    }

    fn spoil_one(&mut self, random: &mut Random) {
        let tokens = random.pick(&[0, 65_536, 70_000, u32::MAX]);
        let any = random.word();
        let raw = &mut self.given.raw;
        match random.below(15) {
            0 => raw.amount = tokens,
            1 => raw.period = random.pick(&[0, LONGEST_PERIOD + 1, u64::MAX, any]),
            2 => (raw.has_burst, raw.burst) = (1, tokens),
            3 => {
                raw.max_keys =
                    random.pick(&[4_097, MOST_KEYS, MOST_KEYS + 1, 1_048_576, u64::MAX, any])
            }
            4 => raw.shards = random.pick(&[MOST_SHARDS + 1, 1 << 32, u64::MAX, any]),
            5 => self.resize(random),
            6 | 7 => self.overfill(random),
            8 => self.late(random),
            9 => raw.classes = random.pick(&[0, 1, 64, 65, u32::MAX, any as u32]),
            10 => self.given.table = self.given.table.iter().copied().skip(6).collect(),
            11 | 12 => self.miscount(random),
            13 => self.mislist(random),
            _ => *raw = other(random, raw),
        }
    }

    /// Another length than the right one.
    fn resize(&mut self, random: &mut Random) {
        let (len, any) = (self.words.len(), random.below(100) as usize);
        let len = random.pick(&[0, 1, len.saturating_sub(1), len + 1, len / 2, any]);
        self.words.resize(len, 7);
    }

    /// A count over the cap, in the key's shard or any other.
    fn overfill(&mut self, random: &mut Random) {
        if self.given.raw.max_keys > MOST_KEYS {
            return;
        }
        let shape = self.given.shape();
        let own = match self.call {
            Call::Debts { shard, .. } => shard.min(shape.shards - 1),
            call => call.key().map_or(0, |key| shape.shard_of(key.hash)),
        };
        let shard = if random.chance(75) {
            own
        } else {
            random.below(shape.shards)
        };
        let counts = [layout::SLOTS, layout::debts(shape.room())].map(|items| items.count);
        let count = shape.shard(shard).start + random.pick(&counts);
        let over = random.pick(&[shape.cap + 1, shape.cap + 2, u64::MAX, 1 << 63]);
        if let Some(word) = self.words.get_mut(count) {
            *word = over;
        }
    }

    /// Another total.
    fn miscount(&mut self, random: &mut Random) {
        let (raw, words) = (&self.given.raw, &mut self.words);
        if raw.max_keys <= MOST_KEYS && words.len() >= self.given.shape().words() {
            miscount(random, words, self.given.shape());
        }
    }

    /// A list of another shard, or with fewer records. The cursor of some shard becomes any number.
    fn mislist(&mut self, random: &mut Random) {
        let any = random.word();
        if let Call::Debts { shard, records, .. } = &mut self.call {
            if random.chance(50) {
                *shard = random.pick(&[0, MOST_SHARDS - 1, MOST_SHARDS, 1 << 32, u64::MAX, any]);
            } else {
                *records = random.below(*records as u64 + 1) as usize;
            }
        }
        let (raw, words) = (&self.given.raw, &mut self.words);
        if raw.max_keys <= MOST_KEYS && words.len() >= self.given.shape().words() {
            let shape = self.given.shape();
            let row = &mut words[shape.shard(random.below(shape.shards))];
            row[layout::cursor(shape.room())] = random.pick(&[0, shape.cap, u64::MAX, any]);
        }
    }

    /// A moment or a longest wait past its bound.
    fn late(&mut self, random: &mut Random) {
        let late = random.pick(&[LATEST_MOMENT + 1, u64::MAX]);
        match &mut self.call {
            Call::Reserve { max_wait, .. } if random.chance(60) => {
                *max_wait = random.pick(&[LONGEST_WAIT + 1, u64::MAX])
            }
            Call::Try { now, .. }
            | Call::Through { now, .. }
            | Call::Reserve { now, .. }
            | Call::Peek { now, .. }
            | Call::Debts { now, .. }
            | Call::Available { now, .. } => {
                *now = late;
            }
            _ => {}
        }
    }
}

impl Plan {
    /// The plan with a table of any kind, in which something may be wrong.
    fn with_any_table(self, random: &mut Random) -> Self {
        let rates = random.pick(&[Rates::Generous, Rates::Tight, Rates::Mixed]);
        let own = self.settings.rate.unwrap_or_else(|| rate(random));
        let mut rows = tables::table(random, rates, &own);
        for _ in 0..random.pick(&[0, 0, 0, 1, 1, 2, 4]) {
            tables::spoil(random, &mut rows);
        }
        Self {
            table: tables::words(random, &rows),
            through: 80,
            ..self
        }
    }

    /// Any call, each kind as often as the others; a try through a class and the calls with a table more often where there is one.
    fn any_call(&mut self, random: &mut Random, words: &[u64]) -> Call {
        let (now, key, cost) = (self.now, self.key(random), self.cost(random));
        if self.classes() > 0 && random.chance(40) {
            return match random.below(6) {
                0 => Call::ClassSetUp,
                1 => Call::ClassClear,
                _ => self.try_(random, (now, key, cost)),
            };
        }
        match random.below(13) {
            12 => self.list(random, now, words),
            11 => random.pick(&[Call::ClassSetUp, Call::ClassClear]),
            0 => Call::SetUp,
            1 | 2 => Call::Try { now, key, cost },
            3 | 4 => Call::Reserve {
                now,
                key,
                cost,
                max_wait: self.max_wait(random),
            },
            5 => Call::Peek { now, key, cost },
            6 => Call::Available { now, key },
            7 => Call::Refund {
                key,
                cost: self.refund(random),
            },
            8 => Call::Remove { key },
            9 => Call::TurnedAway { key },
            _ => random.pick(&[Call::Clear, Call::Length]),
        }
    }
}

/// Another rate over the same sizes.
fn other(random: &mut Random, raw: &RawSettings) -> RawSettings {
    let sizes = (raw.max_keys.min(MOST_KEYS), raw.shards.min(MOST_SHARDS));
    let closed = random.chance(20);
    let settings = Plan::new(random, sizes, closed).settings;
    RawSettings {
        classes: raw.classes,
        ..library::given(&settings, random)
    }
}
