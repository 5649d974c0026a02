//! Request 9 of 02: limits above the modem. A table has classes, each with a rate and a parent or none; each class has a bucket of two words, shortfall and
//! stamp, after the last shard. A try names a class, and passes through it, its parent, and so on.

use oracle::Rate;
use oracle::refusals::{LONGEST_PERIOD, MOST_TOKENS};

use super::bucket::{Bucket, BucketConfig, Wait};
use crate::branches::{Branch, Hits};
use crate::call::Call;
use crate::given::Given;

/// The most classes of a table.
pub const MOST_CLASSES: u64 = 64;
/// The most classes of a chain, the first included.
pub const LONGEST_CHAIN: usize = 8;
/// The words of a class in the table, and of its bucket in the memory.
pub const TABLE_WORDS: usize = 6;
pub const BUCKET_WORDS: usize = 2;

/// How many classes count in the memory of a call: those of its table, if it is lent one. Set-up and clear without a table mean an empty one. Any other call
/// has the number in its settings.
pub fn counted(given: &Given, call: &Call) -> u64 {
    match call {
        Call::ClassSetUp | Call::ClassClear | Call::Through { .. } => table(given).count(),
        Call::SetUp | Call::Clear => 0,
        _ => given.raw.classes.into(),
    }
}

/// The table that a call is lent.
pub fn table(given: &Given) -> Table<'_> {
    Table(&given.table)
}

/// The words of a table. Those past the last whole class are not read.
#[derive(Clone, Copy)]
pub struct Table<'a>(&'a [u64]);

/// A class as its words have it, sound or not.
struct Class {
    amount: u64,
    period: u64,
    burst: u64,
    parent: Option<u64>,
}

/// Why a table is refused, or the class that a try names.
#[derive(Debug, Clone, Copy, PartialEq, Eq)]
pub enum Refusal {
    TooMany,
    Amount,
    Period,
    Burst,
    Parent,
    Chain,
    Named,
}

impl Refusal {
    /// Its number.
    pub const fn number(self) -> u8 {
        match self {
            Self::Amount => 1,
            Self::Period => 2,
            Self::Burst => 3,
            Self::TooMany | Self::Parent | Self::Named => 14,
            Self::Chain => 15,
        }
    }
}

impl Table<'_> {
    /// How many classes it has.
    pub fn count(self) -> u64 {
        (self.0.len() / TABLE_WORDS) as u64
    }

    /// The class of a number that is in the table.
    fn class(self, number: u64) -> Class {
        let at = number as usize * TABLE_WORDS;
        let [amount, period, has_burst, burst, has_parent, parent] =
            self.0[at..at + TABLE_WORDS].try_into().expect("six words");
        Class {
            amount,
            period,
            burst: if has_burst == 0 { amount } else { burst },
            parent: (has_parent != 0).then_some(parent),
        }
    }

    /// Every class, from 0 on.
    fn classes(self) -> impl Iterator<Item = Class> {
        (0..self.count()).map(move |number| self.class(number))
    }

    /// The class of a number, its parent and so on, up to one class more than the longest chain has. All parents are in the table.
    fn chain(self, first: u64) -> Vec<u64> {
        core::iter::successors(Some(first), |&number| self.class(number).parent)
            .take(LONGEST_CHAIN + 1)
            .collect()
    }

    /// Why the whole table is refused: too many classes; the rate of a class, lower class first; a parent that is not there; a chain that does not end in time.
    fn refusal(self) -> Option<Refusal> {
        if self.count() > MOST_CLASSES {
            return Some(Refusal::TooMany);
        }
        let is_there = |number: u64| number < self.count();
        let stray = |class: Class| class.parent.is_some_and(|parent| !is_there(parent));
        let too_long = |number| self.chain(number).len() > LONGEST_CHAIN;
        if let Some(refusal) = self.classes().find_map(|class| class.refusal()) {
            Some(refusal)
        } else if self.classes().any(stray) {
            Some(Refusal::Parent)
        } else if (0..self.count()).any(too_long) {
            Some(Refusal::Chain)
        } else {
            None
        }
    }
}

impl Class {
    /// Why its rate is refused. The numbers are 64 bits wide, and none is cut.
    fn refusal(&self) -> Option<Refusal> {
        let tokens = 1..=u64::from(MOST_TOKENS);
        if !tokens.contains(&self.amount) {
            Some(Refusal::Amount)
        } else if !(1..=LONGEST_PERIOD).contains(&self.period) {
            Some(Refusal::Period)
        } else if !tokens.contains(&self.burst) {
            Some(Refusal::Burst)
        } else {
            None
        }
    }

    /// What its rate says of its bucket. The rate is not refused.
    fn config(&self) -> BucketConfig {
        let tokens = |number| u32::try_from(number).expect("at most 65,535 tokens");
        BucketConfig::of(&Rate {
            amount: tokens(self.amount),
            period: self.period,
            burst: Some(tokens(self.burst)),
            initial: None,
        })
    }
}

/// What a call with a table is refused for after all that 01 refuses: the whole table, and last the class that a try names.
pub fn refusal(given: &Given, call: &Call) -> Option<Refusal> {
    match *call {
        Call::ClassSetUp | Call::ClassClear => table(given).refusal(),
        Call::Through { class, .. } => {
            let unknown = || (class >= table(given).count()).then_some(Refusal::Named);
            table(given).refusal().or_else(unknown)
        }
        _ => None,
    }
}

/// The buckets that a try passes through beside the modem's: those of a chain.
pub struct Chain<'a> {
    table: Table<'a>,
    /// The classes, from the named one up.
    classes: Vec<u64>,
}

/// What the buckets of a chain say to a cost.
pub struct Said {
    /// The largest of their waits.
    pub wait: Wait,
    /// Whether it is another's than the named class's.
    pub above: bool,
}

impl<'a> Chain<'a> {
    /// The chain of a class. Neither the table nor the class is refused.
    pub fn of(given: &'a Given, class: u64) -> Self {
        let table = table(given);
        let classes = table.chain(class);
        Self { table, classes }
    }

    /// Whether it is as long as a chain can be.
    pub fn is_longest(&self) -> bool {
        self.classes.len() == LONGEST_CHAIN
    }

    /// Whether a cost is over any burst on it.
    pub fn is_over(&self, cost: u32) -> bool {
        let over = |&class: &u64| cost > self.table.class(class).config().capacity();
        self.classes.iter().any(over)
    }

    /// The buckets as they are at a moment, each with the place of its words.
    fn buckets(&self, words: &[u64], now: u64) -> Vec<(usize, Bucket)> {
        let bucket = |&class: &u64| {
            let at = class as usize * BUCKET_WORDS;
            let config = self.table.class(class).config();
            (at, Bucket::read(config, [words[at], words[at + 1]], now))
        };
        self.classes.iter().map(bucket).collect()
    }

    /// What the buckets say to a cost. None is charged.
    pub fn asked(&self, words: &[u64], now: u64, cost: u32) -> Said {
        let waits = self.buckets(words, now);
        let waits: Vec<Wait> = waits.iter().map(|(_, bucket)| bucket.wait(cost)).collect();
        let wait = waits
            .iter()
            .fold(Wait::none(now), |longest, &wait| longest.longer(wait));
        Said {
            wait,
            above: wait != waits[0],
        }
    }

    /// Charges every bucket.
    pub fn charge(&self, words: &mut [u64], now: u64, cost: u32) {
        for (at, bucket) in self.buckets(words, now) {
            [words[at], words[at + 1]] = bucket.granted(cost).words();
        }
    }

    /// Which branches the reading of the buckets takes.
    pub fn tell(&self, words: &[u64], now: u64, cost: u32, hits: &mut Hits) {
        for (at, bucket) in self.buckets(words, now) {
            let (stored, stamp) = (words[at], words[at + 1]);
            if bucket.is_cut(stored) {
                hits.hit(Branch::ClassReadCut);
            }
            if now < stamp {
                hits.hit(Branch::ClassLaterStamp);
                let wait = bucket.wait(cost).nanos;
                if wait > 0 {
                    hits.either(wait == u64::MAX, (Branch::ClassHeld, Branch::ClassGrown));
                }
            } else if stored > 0 {
                hits.either(bucket.is_full(), (Branch::ClassFull, Branch::ClassPart));
            }
        }
    }
}
