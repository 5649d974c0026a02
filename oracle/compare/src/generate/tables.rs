//! Tables of classes, sound and not.

use std::rc::Rc;

use oracle::Rate;
use oracle::refusals::LONGEST_PERIOD;

use super::SECOND;
use super::domain::rate;
use crate::random::Random;
use crate::rules::classes::{LONGEST_CHAIN, TABLE_WORDS};

/// A class as the table has it, and the places of its words.
pub type Row = [u64; TABLE_WORDS];
pub const AMOUNT: usize = 0;
pub const PERIOD: usize = 1;
const HAS_BURST: usize = 2;
const BURST: usize = 3;
const HAS_PARENT: usize = 4;
const PARENT: usize = 5;

/// How many classes a sound table has.
const COUNTS: [usize; 12] = [1, 1, 2, 3, 3, 4, 8, 9, 12, 16, 63, 64];

/// How much its classes let pass.
#[derive(Clone, Copy, PartialEq, Eq)]
pub enum Rates {
    /// As much as can be: they deny only where time stands still for thousands of tokens.
    Generous,
    /// About as much as a modem's bucket.
    Tight,
    /// Any, class by class.
    Mixed,
}

/// A table that is not refused.
pub fn table(random: &mut Random, rates: Rates, own: &Rate) -> Vec<Row> {
    let count = random.pick(&COUNTS);
    table_of(random, count, rates, own)
}

/// A table of so many classes that is not refused.
pub fn table_of(random: &mut Random, count: usize, rates: Rates, own: &Rate) -> Vec<Row> {
    let mut rows = Vec::new();
    for parent in parents(random, count) {
        let rates = match rates {
            Rates::Mixed => random.pick(&[Rates::Generous, Rates::Tight, Rates::Mixed]),
            same => same,
        };
        let mut row = class(random, rates, own);
        if let Some(parent) = parent {
            put_parent(random, &mut row, parent as u64);
        }
        rows.push(row);
    }
    rows
}

/// The burst of a class.
pub fn burst(row: &[u64]) -> u64 {
    if row[HAS_BURST] == 0 {
        row[AMOUNT]
    } else {
        row[BURST]
    }
}

/// The parent of a class, if it has one.
pub fn parent(row: &[u64]) -> Option<u64> {
    (row[HAS_PARENT] != 0).then_some(row[PARENT])
}

/// A flag that is set: any number but 0.
fn flag(random: &mut Random) -> u64 {
    random.pick(&[1, 2, 0x100, 1 << 32, 1 << 63, u64::MAX])
}

/// A number that is not read.
fn unread(random: &mut Random) -> u64 {
    let any = random.word();
    random.pick(&[0, 1, 65_536, 1 << 32, u64::MAX, any])
}

/// A class without a parent.
fn class(random: &mut Random, rates: Rates, own: &Rate) -> Row {
    let rate = match rates {
        Rates::Generous => generous(random),
        Rates::Tight => tight(random, own),
        Rates::Mixed => rate(random),
    };
    let (has_burst, burst) = match rate.burst {
        Some(burst) => (flag(random), burst.into()),
        None => (0, unread(random)),
    };
    [
        rate.amount.into(),
        rate.period,
        has_burst,
        burst,
        0,
        unread(random),
    ]
}

fn generous(random: &mut Random) -> Rate {
    Rate {
        amount: 65_535,
        period: random.pick(&[1, 1, 2, 1_000]),
        burst: random.pick(&[None, Some(65_535)]),
        initial: None,
    }
}

/// A rate that denies now and then what a bucket of the modem's rate grants: the same, or somewhat more.
fn tight(random: &mut Random, own: &Rate) -> Rate {
    let burst = u64::from(own.burst.unwrap_or(own.amount));
    let times = random.pick(&[1, 1, 2, 3, 5]);
    let small = random.pick(&[burst, burst * times, burst * times, (burst / 2).max(1)]);
    let period = random.pick(&[own.period, own.period / 2 + 1, SECOND, own.period * 2]);
    Rate {
        amount: own.amount,
        period: period.min(LONGEST_PERIOD),
        burst: random.chance(80).then_some(small.min(65_535) as u32),
        initial: None,
    }
}

fn put_parent(random: &mut Random, row: &mut Row, parent: u64) {
    (row[HAS_PARENT], row[PARENT]) = (flag(random), parent);
}

/// The numbers of so many classes, in any order.
fn shuffled(random: &mut Random, count: usize) -> Vec<usize> {
    let mut numbers: Vec<usize> = (0..count).collect();
    for last in (1..count).rev() {
        numbers.swap(last, random.below(last as u64 + 1) as usize);
    }
    numbers
}

/// A parent for each class, or none: no parents, one parent for all, chains of up to 8, or a forest. The numbers are in any order, or each parent before its
/// children, or after them.
fn parents(random: &mut Random, count: usize) -> Vec<Option<usize>> {
    let order = match random.below(3) {
        0 => (0..count).collect(),
        1 => (0..count).rev().collect(),
        _ => shuffled(random, count),
    };
    let (kind, length) = (random.below(5), random.pick(&[1, 2, 4, 8, 8]));
    let mut parents = vec![None; count];
    let mut depths = vec![1; count];
    for place in 1..count {
        // Which earlier class in this order is above.
        let above = match kind {
            0 => None,
            1 => Some(0),
            2 | 3 => (place % length != 0).then(|| place - 1),
            _ => random
                .chance(80)
                .then(|| random.below(place as u64) as usize),
        };
        let above = above.filter(|&above| depths[above] < LONGEST_CHAIN);
        if let Some(above) = above {
            depths[place] = depths[above] + 1;
            parents[order[place]] = Some(order[above]);
        }
    }
    parents
}

/// Makes something wrong with a table: a rate, a parent, a chain, or too many classes.
pub fn spoil(random: &mut Random, rows: &mut Vec<Row>) {
    let own = rate(random);
    if rows.is_empty() || random.chance(10) {
        let count = random.pick(&[65, 65, 66, 80]);
        rows.resize_with(count, || class(random, Rates::Mixed, &own));
        return;
    }
    let (count, any) = (rows.len() as u64, random.word());
    let row = random.below(count) as usize;
    let tokens = random.pick(&[0, 65_536, 1 << 32, (1 << 32) + 1, u64::MAX, any]);
    match random.below(9) {
        0 => rows[row][AMOUNT] = tokens,
        1 => rows[row][PERIOD] = random.pick(&[0, LONGEST_PERIOD + 1, 1 << 63, u64::MAX]),
        2 => (rows[row][HAS_BURST], rows[row][BURST]) = (flag(random), tokens),
        3 | 4 => {
            let stray = random.pick(&[count, count + 1, 1 << 32, (1 << 32) + 1, u64::MAX, any]);
            put_parent(random, &mut rows[row], stray);
        }
        5 => put_parent(random, &mut rows[row], row as u64),
        6 => join(random, rows, row),
        _ => chain_of(random, rows, LONGEST_CHAIN + 1),
    }
}

/// Two classes below each other, or a class below one that may be below it.
fn join(random: &mut Random, rows: &mut [Row], row: usize) {
    let other = random.below(rows.len() as u64) as usize;
    put_parent(random, &mut rows[row], other as u64);
    if random.chance(50) {
        put_parent(random, &mut rows[other], row as u64);
    }
}

/// A chain of so many classes somewhere in the table, whose last class stays as it is; now and then its last class is below its first.
fn chain_of(random: &mut Random, rows: &mut Vec<Row>, length: usize) {
    let own = rate(random);
    let count = rows.len().max(length);
    rows.resize_with(count, || class(random, Rates::Mixed, &own));
    let order = shuffled(random, count);
    for pair in order[..length].windows(2) {
        put_parent(random, &mut rows[pair[0]], pair[1] as u64);
    }
    if random.chance(20) {
        put_parent(random, &mut rows[order[length - 1]], order[0] as u64);
    }
}

/// The words of a table; now and then some past the last class.
pub fn words(random: &mut Random, rows: &[Row]) -> Rc<[u64]> {
    let past = random.pick(&[0, 0, 0, 1, 5]);
    let past = (0..past).map(|_| random.word());
    rows.iter().flatten().copied().chain(past).collect()
}
