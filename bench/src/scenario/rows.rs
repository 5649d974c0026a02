//! The rows of the table.

use super::classes::through;
use super::debts::debts;
use super::hot::{hot, hot_denied};
use super::known::{known, removals};
use super::new_keys::{all_owe, recovered};
use super::whole::whole;
use super::{Classes, Hash, Listed, Op, Scenario, Setup};

/// What a row is of.
#[derive(Clone, Copy)]
pub enum Kind {
    Hot(Op),
    HotDenied,
    HotThrough(Classes),
    Known(Op),
    Removals,
    AllOwe,
    Recovered,
    Whole(Op),
    Debts(Listed),
}

/// A row, before its calls are made up.
#[derive(Clone, Copy)]
pub struct Row {
    kind: Kind,
    /// Max keys and shards.
    sizes: (usize, usize),
    pub hash: Hash,
    pub idle: bool,
    pub forget_debt: bool,
}

use Hash::Mixed;
use Kind::{AllOwe, Debts, Hot, HotDenied, HotThrough, Known, Recovered, Removals, Whole};

/// Known keys: how many, over how many shards.
pub const SIZES: [(usize, usize); 6] = [MANY, MANY_IN_ONE, MOST, MOST_IN_ONE, ALL, ALL_IN_FOUR];
const MANY: (usize, usize) = (1_000, 64);
const MANY_IN_ONE: (usize, usize) = (1_000, 1);
const MOST: (usize, usize) = (4_096, 64);
const MOST_IN_ONE: (usize, usize) = (4_096, 1);
const ALL: (usize, usize) = (65_536, 64);
const ALL_IN_FOUR: (usize, usize) = (65_536, 4);
const FEW_IN_ONE: (usize, usize) = (64, 1);
const SOME_IN_ONE: (usize, usize) = (512, 1);

/// Every row, in the order of the table.
pub const ROWS: [Row; 54] = [
    row(Hot(Op::Try), MANY),
    row(Hot(Op::Try), MANY).idle(),
    row(HotDenied, MANY),
    row(Hot(Op::Reserve), MANY),
    row(Hot(Op::Peek), MANY),
    row(Hot(Op::Available), MANY),
    row(HotThrough(chains(1, 1)), MANY),
    row(HotThrough(chains(4, 1)), MANY),
    row(HotThrough(chains(8, 1)), MANY),
    row(HotThrough(chains(8, 8)), MANY),
    row(Known(Op::Try), MANY),
    row(Known(Op::Try), MANY).hashed(Mixed),
    row(Known(Op::Try), FEW_IN_ONE),
    row(Known(Op::Try), SOME_IN_ONE),
    row(Known(Op::Try), MANY_IN_ONE),
    row(Known(Op::Try), MOST),
    row(Known(Op::Try), MOST).hashed(Mixed),
    row(Known(Op::Try), MOST_IN_ONE),
    row(Known(Op::Try), ALL),
    row(Known(Op::Try), ALL).hashed(Mixed),
    row(Known(Op::Try), ALL_IN_FOUR).hashed(Mixed),
    row(Known(Op::Peek), MANY),
    row(Known(Op::Peek), MANY_IN_ONE),
    row(AllOwe, MOST),
    row(AllOwe, MOST).hashed(Mixed),
    row(AllOwe, MOST).idle(),
    row(AllOwe, MOST).forget_debt(),
    row(AllOwe, MOST).forget_debt().hashed(Mixed),
    row(AllOwe, MOST).forget_debt().idle(),
    row(Recovered, MOST),
    row(Recovered, MOST).hashed(Mixed),
    row(Recovered, MOST).idle(),
    row(Recovered, MOST).idle().hashed(Mixed),
    row(AllOwe, MOST_IN_ONE),
    row(AllOwe, MOST_IN_ONE).idle(),
    row(AllOwe, MOST_IN_ONE).forget_debt(),
    row(AllOwe, MOST_IN_ONE).forget_debt().idle(),
    row(Recovered, MOST_IN_ONE),
    row(Recovered, MOST_IN_ONE).idle(),
    row(AllOwe, ALL).hashed(Mixed),
    row(AllOwe, ALL_IN_FOUR).hashed(Mixed),
    row(Recovered, ALL).hashed(Mixed),
    row(Recovered, ALL_IN_FOUR).hashed(Mixed),
    row(Known(Op::Refund), MANY),
    row(Known(Op::Refund), MANY_IN_ONE),
    row(Removals, MANY),
    row(Removals, MANY_IN_ONE),
    row(Whole(Op::Length), MANY),
    row(Whole(Op::Length), MANY_IN_ONE),
    row(Whole(Op::SetUp), MANY),
    row(Whole(Op::SetUp), MOST),
    row(Whole(Op::SetUp), ALL),
    row(Debts(Listed::All), MANY_IN_ONE),
    row(Debts(Listed::None), MANY_IN_ONE),
];

/// So many chains of a length.
const fn chains(chain: usize, chains: usize) -> Classes {
    Classes {
        count: chain * chains,
        chain,
    }
}

const fn row(kind: Kind, sizes: (usize, usize)) -> Row {
    Row {
        kind,
        sizes,
        hash: Hash::Fnv1a,
        idle: false,
        forget_debt: false,
    }
}

impl Row {
    const fn hashed(self, hash: Hash) -> Self {
        Self { hash, ..self }
    }

    const fn idle(self) -> Self {
        Self { idle: true, ..self }
    }

    const fn forget_debt(self) -> Self {
        Self {
            forget_debt: true,
            ..self
        }
    }

    /// The idle time that it has.
    const fn idle_time(&self) -> Option<u64> {
        if self.idle { Some(1) } else { None }
    }

    /// Some settings, with what the row says.
    pub const fn setup(&self, base: Setup) -> Setup {
        Setup {
            max_keys: self.sizes.0,
            shards: self.sizes.1,
            idle: self.idle_time(),
            forget_debt: self.forget_debt,
            ..base
        }
    }

    /// Its name, by which it can be asked for.
    pub fn name(&self) -> String {
        let (keys, shards) = self.sizes;
        let sizes = format!(
            "{keys} keys, {shards} shard{}",
            if shards == 1 { "" } else { "s" }
        );
        let rule = if self.forget_debt {
            "ForgetDebt"
        } else {
            "RefuseNew"
        };
        let mut name = match self.kind {
            Hot(op) => format!("hot key, {}", done(op)),
            HotDenied => "hot key, denied".to_owned(),
            HotThrough(Classes { count, chain }) => {
                format!("hot key, granted through a chain of {chain}, table of {count}")
            }
            Known(op) => format!("known keys, {}, {sizes}", done(op)),
            Removals => format!("known keys, removed and back, {sizes}"),
            AllOwe => format!("new keys, all owe, {rule}, {sizes}"),
            Recovered => format!("new keys, recovered, {sizes}"),
            Whole(op) => format!("{}, {sizes}", done(op)),
            Debts(Listed::All) => format!("debts of a full ledger, all listed, {sizes}"),
            Debts(Listed::None) => format!("debts of a full ledger, none listed, {sizes}"),
        };
        name += if self.idle { ", idle time" } else { "" };
        name += if self.hash == Mixed {
            ", mixed hash"
        } else {
            ""
        };
        name
    }

    /// Its calls; `calls` is how many are timed where they are quick.
    pub fn scenario(&self, calls: usize) -> Scenario {
        let scenario = match self.kind {
            Hot(op) => hot(op, calls, self.idle_time()),
            HotDenied => hot_denied(calls),
            HotThrough(classes) => through(calls, classes),
            Known(op) => known(op, calls, self.sizes, self.hash),
            Removals => removals(calls, self.sizes),
            AllOwe => all_owe(calls, self),
            Recovered => recovered(calls, self),
            Whole(op) => whole(op, calls, self.sizes),
            Debts(listed) => debts(calls, self, listed),
        };
        Scenario {
            name: self.name(),
            ..scenario
        }
    }
}

/// What becomes of the keys of a row with this call.
const fn done(op: Op) -> &'static str {
    match op {
        Op::Try | Op::Through => "granted",
        Op::Reserve => "reserved",
        Op::Peek => "peeked",
        Op::Available => "available",
        Op::Refund => "refunded",
        Op::Remove => "removed",
        Op::Length => "length",
        Op::SetUp => "set-up",
        Op::Debts => "listed",
    }
}
