//! Two of the three that do not agree, and how that is told.

use core::fmt;

use oracle::layout::{self, Items, debt, slot};
use oracle::refusals::MOST_KEYS;
use oracle::{Settings, Shape};

use super::Step;
use crate::reply::Said;
use crate::rules::classes::BUCKET_WORDS;

/// Two of the three that do not agree.
pub struct Difference {
    pub sides: &'static str,
    pub step: Step,
    /// Who answered what.
    pub answers: Vec<Said>,
    /// A word's place, and what it is on the two sides.
    pub words: Vec<(usize, u64, u64)>,
    /// The same of the words of the records that are lent for a list.
    pub records: Vec<(usize, u64, u64)>,
}

/// What comes of a comparison.
pub type Checked<T> = Result<T, Box<Difference>>;

/// A difference of these two, in answers or in words.
pub(super) fn differing(
    sides: &'static str,
    step: &Step,
    answers: Vec<Said>,
    ones: &[u64],
    others: &[u64],
) -> Box<Difference> {
    Box::new(Difference {
        sides,
        step: step.clone(),
        answers,
        words: unequal(ones, others),
        records: Vec::new(),
    })
}

/// A difference of these two in the records of a list.
pub(super) fn differing_records(
    sides: &'static str,
    step: &Step,
    answers: Vec<Said>,
    ones: &[u64],
    others: &[u64],
) -> Box<Difference> {
    Box::new(Difference {
        records: unequal(ones, others),
        ..*differing(sides, step, answers, &[], &[])
    })
}

/// The places at which two differ, and what they have there.
fn unequal(ones: &[u64], others: &[u64]) -> Vec<(usize, u64, u64)> {
    let pairs = ones.iter().zip(others).enumerate();
    pairs
        .filter(|(_, (one, other))| one != other)
        .map(|(at, (&one, &other))| (at, one, other))
        .collect()
}

impl fmt::Display for Difference {
    fn fmt(&self, f: &mut fmt::Formatter<'_>) -> fmt::Result {
        let settings = self.step.given.settings();
        writeln!(f, "{} differ", self.sides)?;
        writeln!(f, "  {settings:?}")?;
        writeln!(f, "  given as {:?}", self.step.given)?;
        writeln!(f, "  call: {}", self.step.call)?;
        for said in &self.answers {
            writeln!(f, "  {said}")?;
        }
        for &(at, one, other) in self.words.iter().take(40) {
            writeln!(
                f,
                "  word {at} ({}): {one} and {other}",
                place(&settings, at)
            )?;
        }
        if self.words.len() > 40 {
            writeln!(f, "  and {} more words", self.words.len() - 40)?;
        }
        for &(at, one, other) in self.records.iter().take(40) {
            let (record, name) = (at / debt::WORDS, debt::NAMES[at % debt::WORDS]);
            writeln!(f, "  record {record} {name}: {one} and {other}")?;
        }
        Ok(())
    }
}

/// What a word of the memory is.
fn place(settings: &Settings, at: usize) -> String {
    if settings.max_keys > MOST_KEYS {
        return "of no shape".to_string();
    }
    if at == layout::TOTAL {
        return "total".to_string();
    }
    let shape = Shape::of(settings);
    let in_shard = |shard: &u64| shape.shard(*shard).contains(&at);
    let Some(shard) = (0..shape.shards).find(in_shard) else {
        return name_in_classes(at - shape.words());
    };
    let name = name_in_shard(at - shape.shard(shard).start, shape.room());
    format!("shard {shard} {name}")
}

/// What a word after the shards is.
fn name_in_classes(word: usize) -> String {
    let name = ["shortfall", "stamp"][word % BUCKET_WORDS];
    format!("class {} {name}", word / BUCKET_WORDS)
}

/// What a word of a shard is.
fn name_in_shard(word: usize, cap: usize) -> String {
    let (slots, debts) = (layout::SLOTS, layout::debts(cap));
    let heads = [
        (slots.count, "slot count"),
        (layout::HAND, "hand"),
        (layout::SWEEP, "sweep"),
        (debts.count, "debt count"),
        (layout::cursor(cap), "cursor"),
    ];
    if let Some((_, name)) = heads.iter().find(|&&(at, _)| at == word) {
        return (*name).to_string();
    }
    if word < slots.at(cap) {
        name_in_item("slot", &slot::NAMES, slots, word)
    } else if word < debts.at(cap) {
        name_in_item("debt", &debt::NAMES, debts, word)
    } else {
        name_in_index(word, cap)
    }
}

/// Which place of which index a word is.
fn name_in_index(word: usize, cap: usize) -> String {
    let (slots, debts) = (layout::slot_index(cap), layout::debt_index(cap));
    if slots.contains(&word) {
        format!("slot index place {}", word - slots.start)
    } else {
        format!("debt index place {}", word - debts.start)
    }
}

/// What a word of an item is.
fn name_in_item(what: &str, names: &[&str], items: Items, word: usize) -> String {
    let within = word - items.first;
    let (place, field) = (within / items.width, within % items.width);
    format!("{what} {place} {}", names[field])
}
