//! How time passes.

use oracle::layout::{self, Items, debt, slot};
use oracle::refusals::LATEST_MOMENT;

use super::domain::start;
use super::{MS, Plan};
use crate::random::Random;

impl Plan {
    /// Lets time pass, or go back.
    pub(super) fn pass(&mut self, random: &mut Random, words: &[u64]) {
        if self.layered && random.chance(80) {
            if random.chance(10) {
                self.now = self.next_settling(random, words).min(LATEST_MOMENT);
            }
            return;
        }
        let still = [93, 60, 40, 20][self.pace as usize];
        if random.chance(still) || self.large && self.named < 2 * self.shape.room() + 200 {
            return;
        }
        if random.chance(25) {
            self.now = self.edge(random, words).min(LATEST_MOMENT);
            return;
        }
        let step = self.step(random);
        self.now = if random.chance(self.back) {
            self.now.saturating_sub(step)
        } else {
            self.now.saturating_add(step).min(LATEST_MOMENT)
        };
        if self.now == LATEST_MOMENT && random.chance(10) {
            self.now = start(random);
        }
    }

    /// How far time goes.
    fn step(&self, random: &mut Random) -> u64 {
        match (self.pace, random.below(10)) {
            (0, 0..5) | (1, 0..5) => random.within(1, self.spans.token),
            (0, 5..9) => random.within(1, self.spans.full / 16 + 1),
            (_, 0..3) => random.within(1, self.spans.full),
            (_, 3..5) => random.within(1, self.spans.limit),
            (_, 5) => random.within(1, 3 * MS),
            (_, 6..8) => random.pick(&[
                self.spans.token,
                self.spans.full,
                self.spans.full + 1,
                self.spans.limit,
                self.spans.limit - 1,
            ]),
            (3, _) => random.any_size(1 << 60),
            _ => self.spans.full.saturating_mul(2),
        }
    }

    /// The words of the shard of some key.
    pub(super) fn some_shard<'a>(&self, random: &mut Random, words: &'a [u64]) -> &'a [u64] {
        let shard = self.shape.shard_of(random.pick(&self.keys).hash);
        &words[self.shape.shard(shard)]
    }

    /// Where a shard's debts stand.
    pub(super) fn debts(&self) -> Items {
        layout::debts(self.shape.room())
    }

    /// The moment at which the next debt of some shard settles.
    fn next_settling(&self, random: &mut Random, words: &[u64]) -> u64 {
        let (row, debts) = (self.some_shard(random, words), self.debts());
        (0..row[debts.count] as usize)
            .map(|place| row[debts.at(place) + debt::SETTLES_AT])
            .filter(|&settles_at| settles_at > self.now)
            .min()
            .unwrap_or(self.now)
    }

    /// A moment at which something turns: a debt settles, a bucket is full, a slot is idle for long enough, a class has a token; or just before or after.
    fn edge(&self, random: &mut Random, words: &[u64]) -> u64 {
        let (row, debts) = (self.some_shard(random, words), self.debts());
        let (slot_count, debt_count) = (row[layout::SLOTS.count], row[debts.count]);
        let moment = if self.through > 0 && random.chance(40) {
            self.class_turn(random, words)
        } else if debt_count > 0 && random.chance(50) {
            row[debts.at(random.below(debt_count) as usize) + debt::SETTLES_AT]
        } else if slot_count > 0 {
            let slot = &row[layout::SLOTS.item(random.below(slot_count) as usize)];
            self.turn(random, slot)
        } else {
            self.now
        };
        random.pick(&[
            moment,
            moment,
            moment.saturating_add(1),
            moment.saturating_sub(1),
        ])
    }

    /// A moment at which a slot turns: its stamp, or when it is full, or idle for long enough.
    fn turn(&self, random: &mut Random, slot: &[u64]) -> u64 {
        let amount = self.settings.rate.map_or(1, |rate| rate.amount);
        let stamp = slot[slot::STAMP];
        match random.below(3) {
            0 => stamp,
            1 => stamp.saturating_add(slot[slot::SHORTFALL].div_ceil(amount.into())),
            _ => slot[slot::LAST_SEEN]
                .saturating_mul(MS)
                .saturating_add(self.spans.limit),
        }
    }

    /// Now, or in a few calls a moment past the latest.
    pub(super) fn moment(&self, random: &mut Random) -> u64 {
        match random.below(400) {
            0 => LATEST_MOMENT + 1,
            1 => u64::MAX,
            2 => LATEST_MOMENT,
            _ => self.now,
        }
    }
}
