//! The indexes of random contents: sound ones, and damaged ones.

use core::ops::Range;

use oracle::Shape;
use oracle::layout::{self, Items, debt, slot};

use crate::random::Random;

/// The items of one kind, where their hash stands, and their index.
struct Indexed {
    items: Items,
    hash: usize,
    index: Range<usize>,
}

/// The slots and the debts of a shard.
fn both(cap: usize) -> [Indexed; 2] {
    let slots = Indexed {
        items: layout::SLOTS,
        hash: slot::HASH,
        index: layout::slot_index(cap),
    };
    let debts = Indexed {
        items: layout::debts(cap),
        hash: debt::HASH,
        index: layout::debt_index(cap),
    };
    [slots, debts]
}

/// Names every item of a shard in its index, at an empty place of its walk. The order in which items come is theirs, or any.
pub fn fill(random: &mut Random, row: &mut [u64], cap: usize) {
    for Indexed { items, hash, index } in both(cap) {
        let mut numbers: Vec<u64> = (0..row[items.count]).collect();
        if random.chance(50) {
            shuffle(random, &mut numbers);
        }
        for number in numbers {
            let home = row[items.at(number as usize) + hash] % index.len() as u64;
            let mut place = home as usize;
            while row[index.start + place] != 0 {
                place = (place + 1) % index.len();
            }
            row[index.start + place] = number + 1;
        }
    }
}

fn shuffle(random: &mut Random, numbers: &mut [u64]) {
    for end in (1..numbers.len()).rev() {
        numbers.swap(end, random.below(end as u64 + 1) as usize);
    }
}

/// Damages indexes of some shards in some ways.
pub fn damage(random: &mut Random, words: &mut [u64], shape: Shape) {
    for _ in 0..random.pick(&[1, 1, 2, 4]) {
        let row = &mut words[shape.shard(random.below(shape.shards))];
        for Indexed { items, index, .. } in both(shape.room()) {
            let count = row[items.count];
            damage_one(random, &mut row[index], count);
        }
    }
}

/// Damages one index of so many items. To fill a large one makes every removal long, so that is done seldom.
fn damage_one(random: &mut Random, places: &mut [u64], count: u64) {
    let large = places.len() > 200;
    match random.below(12) {
        0 | 1 if !large || random.chance(3) => fill_up(random, places, count),
        2 => places.fill(0),
        3 => places.iter_mut().for_each(|place| *place = random.word()),
        4 => renew(random, places, count),
        5 => places.rotate_right(1),
        6 | 7 => change_some(random, places, count),
        8 => swap(random, places),
        9 => repeat(random, places),
        _ => {}
    }
}

/// No place stays empty: what fills it names no item, or some item once more.
fn fill_up(random: &mut Random, places: &mut [u64], count: u64) {
    let over = random.pick(&[0, 50, 100]);
    for place in places.iter_mut().filter(|place| **place == 0) {
        *place = if random.chance(over) {
            no_item(random, count)
        } else {
            random.within(1, count.max(1))
        };
    }
}

/// All places anew: empty, an item's, or no item's.
fn renew(random: &mut Random, places: &mut [u64], count: u64) {
    let used = random.pick(&[20, 60, 95]);
    for place in places {
        let word = random.within(0, count.saturating_add(2));
        *place = if random.chance(used) { word } else { 0 };
    }
}

/// Some places become empty, or an item's, or no item's.
fn change_some(random: &mut Random, places: &mut [u64], count: u64) {
    for _ in 0..random.pick(&[1, 2, 5]) {
        let (none, item) = (no_item(random, count), random.within(1, count.max(1)));
        places[random.below(places.len() as u64) as usize] = random.pick(&[0, none, none, item]);
    }
}

/// Two places change their words.
fn swap(random: &mut Random, places: &mut [u64]) {
    let [one, other] = [0; 2].map(|_| random.below(places.len() as u64) as usize);
    places.swap(one, other);
}

/// The place after one in use has the same word: an item is named twice.
fn repeat(random: &mut Random, places: &mut [u64]) {
    let from = random.below(places.len() as u64) as usize;
    let mut round = (from..places.len()).chain(0..from);
    if let Some(place) = round.find(|&place| places[place] != 0) {
        places[(place + 1) % places.len()] = places[place];
    }
}

/// A word that names no item of so many.
fn no_item(random: &mut Random, count: u64) -> u64 {
    let any = random.word().max(count.saturating_add(1));
    random.pick(&[
        count.saturating_add(1),
        count.saturating_add(2),
        u64::MAX,
        any,
    ])
}
