//! The calls of a limiter.

use core::fmt;

use oracle::{Answer, Key, Limiter};

/// One call, without its settings and memory.
#[derive(Debug, Clone, Copy, PartialEq, Eq)]
pub enum Call {
    SetUp,
    Try {
        now: u64,
        key: Key,
        cost: u32,
    },
    Reserve {
        now: u64,
        key: Key,
        cost: u32,
        max_wait: u64,
    },
    Peek {
        now: u64,
        key: Key,
        cost: u32,
    },
    Available {
        now: u64,
        key: Key,
    },
    Refund {
        key: Key,
        cost: u32,
    },
    Remove {
        key: Key,
    },
    Clear,
    Length,
    TurnedAway {
        key: Key,
    },
    /// Set-up, clear and a try with the table of classes that is given with the settings (02, request 9).
    ClassSetUp,
    ClassClear,
    Through {
        now: u64,
        key: Key,
        class: u64,
        cost: u32,
    },
    /// The debts of a shard, as a list of so many records (02, request 12).
    Debts {
        now: u64,
        shard: u64,
        records: usize,
    },
}

/// The names of the calls, in the order of [`Call::index`].
pub const NAMES: [&str; 14] = [
    "set-up",
    "try",
    "reserve",
    "peek",
    "available",
    "refund",
    "remove",
    "clear",
    "length",
    "turned-away",
    "class-set-up",
    "class-clear",
    "through",
    "debts",
];

impl Call {
    /// The call's place in [`NAMES`].
    pub const fn index(&self) -> usize {
        match self {
            Self::SetUp => 0,
            Self::Try { .. } => 1,
            Self::Reserve { .. } => 2,
            Self::Peek { .. } => 3,
            Self::Available { .. } => 4,
            Self::Refund { .. } => 5,
            Self::Remove { .. } => 6,
            Self::Clear => 7,
            Self::Length => 8,
            Self::TurnedAway { .. } => 9,
            Self::ClassSetUp => 10,
            Self::ClassClear => 11,
            Self::Through { .. } => 12,
            Self::Debts { .. } => 13,
        }
    }

    /// The key, if the call has one.
    pub const fn key(&self) -> Option<Key> {
        match *self {
            Self::SetUp
            | Self::Clear
            | Self::Length
            | Self::ClassSetUp
            | Self::ClassClear
            | Self::Debts { .. } => None,
            Self::Try { key, .. }
            | Self::Reserve { key, .. }
            | Self::Peek { key, .. }
            | Self::Available { key, .. }
            | Self::Refund { key, .. }
            | Self::Remove { key }
            | Self::Through { key, .. }
            | Self::TurnedAway { key } => Some(key),
        }
    }

    /// The Rust's answer. Set-up is not asked of a limiter that is there: it makes a new one. The Rust has no classes: a try through one is its plain try,
    /// which is the same where the classes let it pass.
    pub fn ask(&self, limiter: &Limiter) -> Answer {
        match *self {
            Self::SetUp | Self::ClassSetUp => unreachable!("a trace starts with set-up"),
            Self::Try { now, key, cost } | Self::Through { now, key, cost, .. } => {
                limiter.try_(now, key, cost)
            }
            Self::Reserve {
                now,
                key,
                cost,
                max_wait,
            } => limiter.reserve(now, key, cost, max_wait),
            Self::Peek { now, key, cost } => limiter.peek(now, key, cost),
            Self::Available { now, key } => limiter.available(now, key),
            Self::Refund { key, cost } => limiter.refund(key, cost),
            Self::Remove { key } => limiter.remove(key),
            Self::Clear | Self::ClassClear => limiter.clear(),
            Self::Length => limiter.len(),
            Self::TurnedAway { key } => limiter.turned_away(key),
            Self::Debts {
                now,
                shard,
                records,
            } => limiter.debts(now, shard, records).0,
        }
    }
}

/// A line of the oracle program's traces (oracle/README.md). The program knows no classes and no lists: calls with a table, and lists of debts, are comments in
/// a trace.
impl fmt::Display for Call {
    fn fmt(&self, f: &mut fmt::Formatter<'_>) -> fmt::Result {
        match *self {
            Self::SetUp => write!(f, "set"),
            Self::Try { now, key, cost } => write!(f, "try {now} {} {} {cost}", key.hash, key.key),
            Self::Reserve {
                now,
                key,
                cost,
                max_wait,
            } => {
                write!(
                    f,
                    "reserve {now} {} {} {cost} {max_wait}",
                    key.hash, key.key
                )
            }
            Self::Peek { now, key, cost } => {
                write!(f, "peek {now} {} {} {cost}", key.hash, key.key)
            }
            Self::Available { now, key } => write!(f, "available {now} {} {}", key.hash, key.key),
            Self::Refund { key, cost } => write!(f, "refund {} {} {cost}", key.hash, key.key),
            Self::Remove { key } => write!(f, "remove {} {}", key.hash, key.key),
            Self::Clear => write!(f, "clear"),
            Self::Length => write!(f, "length"),
            Self::TurnedAway { key } => write!(f, "turned-away {} {}", key.hash, key.key),
            Self::ClassSetUp => write!(f, "# class-set-up"),
            Self::ClassClear => write!(f, "# class-clear"),
            Self::Debts {
                now,
                shard,
                records,
            } => write!(f, "# debts of shard {shard} at {now}, {records} records"),
            Self::Through {
                now,
                key,
                class,
                cost,
            } => write!(
                f,
                "# through {class}: try {now} {} {} {cost}",
                key.hash, key.key
            ),
        }
    }
}
