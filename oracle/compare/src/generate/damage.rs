//! Words that the Rust's memory cannot have.

use oracle::Shape;
use oracle::layout::{self, debt, slot};

use super::contents::slots;
use super::{Plan, indexes};
use crate::random::Random;

impl Plan {
    /// Contents with damaged indexes, and perhaps damaged otherwise. The counts are at most the cap. The total is mostly the slots of all shards, sometimes as
    /// many as there is room for, so that the next slot is one too many, and sometimes wrong.
    pub fn damaged_contents(&self, random: &mut Random) -> Vec<u64> {
        let mut words = self.contents(random);
        if random.chance(30) {
            damage(random, &mut words, self.shape, self.now);
            hold_counts(&mut words, self.shape);
            self.damage_buckets(random, &mut words);
        }
        indexes::damage(random, &mut words, self.shape);
        words[layout::TOTAL] = slots(&words, self.shape);
        match random.below(10) {
            0..2 => words[layout::TOTAL] = self.shape.places(),
            2 => miscount(random, &mut words, self.shape),
            _ => {}
        }
        words
    }
}

/// Makes every count at most the cap.
fn hold_counts(words: &mut [u64], shape: Shape) {
    for shard in 0..shape.shards {
        let row = &mut words[shape.shard(shard)];
        for items in [layout::SLOTS, layout::debts(shape.room())] {
            row[items.count] = row[items.count].min(shape.cap);
        }
    }
}

/// Makes the total wrong, or perhaps wrong: 0, one less or one more than the slots of all shards, under the slots of a shard, all that there is room for, one
/// more, the largest word.
pub fn miscount(random: &mut Random, words: &mut [u64], shape: Shape) {
    let all = slots(words, shape);
    let own = words[shape.shard(random.below(shape.shards))][layout::SLOTS.count];
    let totals = [
        0,
        all.saturating_sub(1),
        all.saturating_add(1),
        own.saturating_sub(1),
        own,
        shape.places(),
        shape.places() + 1,
        u64::MAX,
    ];
    words[layout::TOTAL] = random.pick(&totals);
}

/// The first words of a slot, hash and key, are its identity.
const IDENTITY: usize = slot::KEY + 1;

/// Damages words, mostly in ways that the Rust's memory cannot be damaged: items twice, words past a count, odd marks and counts. A number of tries turned
/// away becomes any word, which the tally can hold.
pub fn damage(random: &mut Random, words: &mut [u64], shape: Shape, now: u64) {
    let any = random.word();
    let numbers = [
        0,
        1,
        2,
        5,
        shape.cap,
        shape.cap + 1,
        now,
        now + 1,
        1 << 62,
        u64::MAX,
        any,
    ];
    for _ in 0..random.pick(&[0, 1, 3, 20]) {
        let row = &mut words[shape.shard(random.below(shape.shards))];
        let place = |random: &mut Random| random.below(shape.cap) as usize;
        let (one, other) = (place(random), place(random));
        let (slots, debts) = (layout::SLOTS, layout::debts(shape.room()));
        match random.below(8) {
            0 => row.copy_within(slots.at(one)..slots.at(one) + IDENTITY, slots.at(other)),
            1 => row[debts.at(one) + debt::HASH] = row[debts.at(other) + debt::HASH],
            2 => row[slots.at(one) + slot::MARK] = random.pick(&[2, 1 << 63, u64::MAX]),
            3 => row[slots.count] = random.within(0, shape.cap),
            4 => row[debts.count] = random.within(0, shape.cap),
            5 => row[slots.at(one) + slot::TURNED_AWAY] = any,
            6 => row[layout::cursor(shape.room())] = random.pick(&numbers),
            _ => row[random.below(row.len() as u64) as usize] = random.pick(&numbers),
        }
    }
    match random.below(10) {
        0..6 => words[layout::TOTAL] = slots(words, shape),
        6..9 => miscount(random, words, shape),
        _ => {}
    }
}
