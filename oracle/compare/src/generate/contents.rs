//! Random contents that the Rust can hold.

use std::collections::HashSet;

use oracle::layout::{self, debt, slot};
use oracle::{Key, Shape};

use super::{MS, Plan, indexes};
use crate::random::Random;

/// The number at which a count of tries turned away stops.
const MOST_TURNED_AWAY: u64 = (1 << 32) - 1;

/// How a shard is filled.
struct Fill {
    /// The most slots, and the most debts.
    at_most: u64,
    slots: u64,
    /// Every slot owes much.
    deep: bool,
    /// In so many of a hundred: slots that owe, that have the mark; debts that are settled.
    owing: u64,
    marked: u64,
    settled: u64,
    /// The key that comes first.
    first: usize,
}

impl Fill {
    fn new(random: &mut Random, keys: &[Key], at_most: u64) -> Self {
        let full = random.chance(70);
        Self {
            at_most,
            slots: if full {
                at_most
            } else {
                random.within(0, at_most)
            },
            deep: random.chance(25),
            owing: random.pick(&[0, 50, 95, 100, 100]),
            marked: random.pick(&[0, 50, 100]),
            settled: random.pick(&[0, 5, 5, 50]),
            first: random.below(keys.len().max(1) as u64) as usize,
        }
    }
}

/// The slots of all shards, by their counts.
pub fn slots(words: &[u64], shape: Shape) -> u64 {
    let counts = (0..shape.shards).map(|shard| words[shape.shard(shard)][layout::SLOTS.count]);
    counts.fold(0, u64::saturating_add)
}

impl Plan {
    /// Contents that the Rust can hold, sound or not: any hand, sweep, cursor, shortfall, stamp, count and settling moment; sound indexes. After them the
    /// buckets of the classes.
    pub fn contents(&self, random: &mut Random) -> Vec<u64> {
        let mut words = vec![0];
        for shard in 0..self.shape.shards {
            let own: Vec<Key> = self
                .keys
                .iter()
                .copied()
                .filter(|key| self.shape.shard_of(key.hash) == shard)
                .collect();
            words.extend(self.shard(random, shard, own));
        }
        words[layout::TOTAL] = slots(&words, self.shape);
        words.extend(self.buckets(random));
        words
    }

    /// One shard's contents, of these keys and others. A shard that the trace does not name stays empty, mostly.
    fn shard(&self, random: &mut Random, shard: u64, mut keys: Vec<Key>) -> Vec<u64> {
        let at_most = if keys.is_empty() && random.chance(80) {
            0
        } else {
            self.shape.cap
        };
        for number in 0..at_most {
            let hash = random.word() & !(63 << 40) | shard << 40;
            keys.push(Key { hash, key: number });
        }
        let fill = Fill::new(random, &keys, at_most);
        let mut words = vec![0; self.shape.shard_words()];
        self.fill_slots(random, &mut words, &keys, &fill);
        self.fill_debts(random, &mut words, &keys, &fill);
        indexes::fill(random, &mut words, self.shape.room());
        words
    }

    /// Slots for the keys from the first on, each identity once; hand and sweep.
    fn fill_slots(&self, random: &mut Random, words: &mut [u64], keys: &[Key], fill: &Fill) {
        let mut held = HashSet::new();
        let from_first = keys.iter().cycle().skip(fill.first).take(keys.len());
        let once = from_first.filter(|key| held.insert((key.hash, key.key)));
        let mut count = 0;
        for (place, key) in once.take(fill.slots as usize).enumerate() {
            let (shortfall, stamp) = if fill.deep {
                self.deep(random)
            } else {
                self.bucket(random, fill.owing)
            };
            let slot = &mut words[layout::SLOTS.item(place)];
            slot[slot::HASH] = key.hash;
            slot[slot::KEY] = key.key;
            slot[slot::SHORTFALL] = shortfall;
            slot[slot::STAMP] = stamp;
            slot[slot::MARK] = random.chance(fill.marked).into();
            slot[slot::LAST_SEEN] = self.seen(random);
            slot[slot::TURNED_AWAY] = turned_away(random);
            count += 1;
        }
        words[layout::SLOTS.count] = count;
        words[layout::HAND] = self.place(random, count);
        words[layout::SWEEP] = self.place(random, count);
    }

    /// Debts for the keys from the first on, backwards, each hash once; the cursor.
    fn fill_debts(&self, random: &mut Random, words: &mut [u64], keys: &[Key], fill: &Fill) {
        let most = if fill.deep || random.chance(60) {
            fill.at_most
        } else {
            random.within(0, fill.at_most)
        };
        let (debts, mut hashes, mut count) = (self.debts(), HashSet::new(), 0);
        let backwards = keys.iter().rev().cycle().skip(fill.first).take(keys.len());
        let once = backwards.filter(|key| hashes.insert(key.hash));
        for (place, key) in once.take(most as usize).enumerate() {
            let debt = &mut words[debts.item(place)];
            debt[debt::HASH] = key.hash;
            debt[debt::SETTLES_AT] = self.settles(random, fill.settled);
            count += 1;
        }
        words[debts.count] = count;
        words[layout::cursor(self.shape.room())] = self.place(random, count);
    }

    /// Shortfall and stamp: empty or below.
    fn deep(&self, random: &mut Random) -> (u64, u64) {
        let parts = self
            .settings
            .rate
            .map_or(1, |rate| rate.period)
            .saturating_mul(self.burst);
        (random.within(parts, parts.saturating_mul(3)), self.now)
    }

    /// Shortfall and stamp: full, owing, beyond empty, stamped in the future, or any words.
    fn bucket(&self, random: &mut Random, owing: u64) -> (u64, u64) {
        let parts = self
            .settings
            .rate
            .map_or(1, |rate| rate.period)
            .saturating_mul(self.burst);
        let stamp = match random.below(8) {
            0..4 => self.now,
            4..6 => self.now.saturating_sub(random.within(0, self.spans.full)),
            6 => self.now.saturating_add(random.within(0, self.spans.full)),
            _ => {
                let (any, near) = (random.word(), random.within(0, self.spans.full));
                random.pick(&[any, any, u64::MAX, u64::MAX - near])
            }
        };
        if !random.chance(owing) {
            return (0, stamp);
        }
        let shortfall = match random.below(8) {
            0..5 => random.within(1, parts),
            5 => random.any_size(parts),
            6 => random.within(parts, parts.saturating_mul(10)),
            _ => {
                let any = random.word();
                random.pick(&[u64::MAX, any, parts + (1 << 62), parts + (1 << 62) + 1])
            }
        };
        (shortfall, stamp)
    }

    /// A last-seen in ms: about the idle limit ago, now, after now, or any.
    fn seen(&self, random: &mut Random) -> u64 {
        let (now, limit) = (self.now / MS, self.spans.limit / MS);
        match random.below(6) {
            0 => 0,
            1 => now.saturating_sub(limit),
            2 => now.saturating_sub(limit - 1),
            3 => now,
            4 => now + random.within(0, 2 * limit.min(1 << 40)),
            _ => random.word(),
        }
    }

    /// When a debt settles: by now, or later.
    fn settles(&self, random: &mut Random, settled: u64) -> u64 {
        if random.chance(settled) {
            return random.pick(&[0, self.now, self.now.saturating_sub(1), self.now / 2]);
        }
        let later = match random.below(8) {
            0 => 1,
            1..6 => random.within(1, self.spans.full),
            6 => random.any_size(u64::MAX),
            _ => self.spans.full,
        };
        self.now.saturating_add(later)
    }

    /// Where a hand, a sweep or a cursor stands: at any place, at the count, past it, anywhere.
    fn place(&self, random: &mut Random, count: u64) -> u64 {
        let anywhere = random.word();
        let within = random.within(0, count);
        random.pick(&[within, within, within, count, count + 1, u64::MAX, anywhere])
    }
}

/// A count of tries turned away: none, some, about the most, or a larger word.
fn turned_away(random: &mut Random) -> u64 {
    let (some, most) = (random.within(2, 20), MOST_TURNED_AWAY);
    random.pick(&[0, 0, 1, some, most - 1, most, most + 1, u64::MAX])
}
