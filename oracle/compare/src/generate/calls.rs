//! Which call comes next, and with which arguments.

use oracle::Key;
use oracle::layout::debt;
use oracle::refusals::LONGEST_WAIT;

use super::Plan;
use crate::call::Call;
use crate::random::Random;

impl Plan {
    /// The next call, given the words as they are.
    pub fn call(&mut self, random: &mut Random, words: &[u64]) -> Call {
        self.pass(random, words);
        if core::mem::take(&mut self.cleared) && random.chance(40) {
            return self.clear(random);
        }
        if random.chance(1) {
            let now = self.moment(random);
            return self.list(random, now, words);
        }
        if self.layered && random.chance(90) {
            let now = self.moment(random);
            return self.layer(random, now);
        }
        let (now, key) = (self.moment(random), self.key(random));
        if random.chance(self.requests) {
            return self.request(random, now, key);
        }
        let key = if random.chance(30) {
            self.debtor(random, words).unwrap_or(key)
        } else {
            key
        };
        self.other(random, now, key, words)
    }

    /// A try or a reservation.
    fn request(&self, random: &mut Random, now: u64, key: Key) -> Call {
        let cost = self.cost(random);
        if random.chance(75) {
            return self.try_(random, (now, key, cost));
        }
        Call::Reserve {
            now,
            key,
            cost,
            max_wait: self.max_wait(random),
        }
    }

    /// A look, a refund, a removal, a list of debts, or a call on the whole store.
    fn other(&mut self, random: &mut Random, now: u64, key: Key, words: &[u64]) -> Call {
        match random.below(1000) {
            0..220 => Call::Peek {
                now,
                key,
                cost: self.cost(random),
            },
            220..400 => Call::Available { now, key },
            400..520 => Call::TurnedAway { key },
            520..740 => Call::Refund {
                key,
                cost: self.refund(random),
            },
            740..850 => Call::Remove { key },
            850..930 => self.list(random, now, words),
            _ if self.large => Call::Length,
            930..985 => Call::Length,
            _ => {
                self.cleared = true;
                self.clear(random)
            }
        }
    }

    /// A request of a layered plan: two of each key.
    fn layer(&mut self, random: &mut Random, now: u64) -> Call {
        let turn = self.named;
        self.named += 1;
        let key = self.keys[turn / 2 % self.keys.len()];
        if (turn / (2 * self.shape.room())).is_multiple_of(2) {
            return Call::Try {
                now,
                key,
                cost: random.within(1, self.burst / 3) as u32,
            };
        }
        Call::Reserve {
            now,
            key,
            cost: self.burst as u32,
            max_wait: LONGEST_WAIT,
        }
    }

    /// A key of the trace.
    pub(super) fn key(&mut self, random: &mut Random) -> Key {
        if self.in_turn && random.chance(85) {
            self.named += 1;
            return self.keys[self.named % self.keys.len()];
        }
        random.pick(&self.keys)
    }

    /// A key with a debt.
    fn debtor(&self, random: &mut Random, words: &[u64]) -> Option<Key> {
        let (row, debts) = (self.some_shard(random, words), self.debts());
        let count = row[debts.count];
        let owing = (count > 0).then(|| debts.at(random.below(count) as usize))?;
        let hash = row[owing + debt::HASH];
        self.keys.iter().copied().find(|key| key.hash == hash)
    }

    /// A cost: mostly one that the burst can meet.
    pub(super) fn cost(&self, random: &mut Random) -> u32 {
        let some = if self.settings.rate.is_none() {
            random.below(15)
        } else {
            random.below(100)
        };
        let cost = match (some, self.spend) {
            (0..3, _) => 0,
            (3..5, _) => self.burst + 1,
            (5, _) => random.pick(&[65_536, u64::from(u32::MAX)]),
            (6..30, _) => random.within(1, self.burst),
            (_, 0) => 1,
            (_, 1) => random.within(1, self.burst),
            _ => self.burst,
        };
        u32::try_from(cost).expect("a cost of 32 bits")
    }

    /// The tokens of a refund.
    pub(super) fn refund(&self, random: &mut Random) -> u32 {
        let costs = [0, 1, 1, self.burst as u32, 65_536, u32::MAX];
        if self.spans.token < 1 << 32 || random.chance(50) {
            return random.pick(&costs);
        }
        // Long tokens: the parts, or the time, of so many are just past 64 bits.
        let token = random.pick(&[self.spans.period, self.spans.token - 1, self.spans.token]);
        let cost = u64::MAX / token + random.below(3);
        random.pick(&[u32::MAX, u32::try_from(cost).unwrap_or(u32::MAX)])
    }

    /// The longest wait of a reservation.
    pub(super) fn max_wait(&self, random: &mut Random) -> u64 {
        let wait = match random.below(12) {
            0 => 0,
            1 => LONGEST_WAIT,
            2 => return LONGEST_WAIT + random.pick(&[0, 0, 0, 1, LONGEST_WAIT]),
            3..5 => random.within(0, self.spans.token),
            5 => self.spans.token,
            6..8 => random.within(0, self.spans.full),
            8 => self.spans.full,
            9 => self.spans.full.saturating_mul(random.within(1, 20)),
            _ => random.any_size(LONGEST_WAIT),
        };
        wait.min(LONGEST_WAIT)
    }
}
