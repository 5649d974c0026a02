//! Lists of debts: of which shard, after which moment, and with how many records.

use oracle::layout::debt;

use super::Plan;
use crate::call::Call;
use crate::random::Random;

/// The most debts for which lists of every length are asked for.
const MOST_LENGTHS: usize = 40;

impl Plan {
    /// A list of debts. Mostly there is such a shard, and as many records as the debts take, two more, or fewer.
    pub(super) fn list(&self, random: &mut Random, now: u64, words: &[u64]) -> Call {
        let shard = self.listed_shard(random, words);
        let now = if random.chance(50) {
            self.settling(random, shard, words).unwrap_or(now)
        } else {
            now
        };
        let listed = self.unsettled(now, shard, words);
        let records = match random.below(8) {
            0 => 0,
            1 | 2 => listed,
            3 => listed.saturating_sub(1),
            4 => self.shape.room() + 2,
            _ => random.within(0, listed as u64 + 2) as usize,
        };
        Call::Debts {
            now,
            shard,
            records,
        }
    }

    /// The same list with every number of records, from 0 to two more than it takes; none where these are too many.
    pub fn lists(&self, random: &mut Random, words: &[u64]) -> Vec<Call> {
        let Call::Debts { now, shard, .. } = self.list(random, self.now, words) else {
            return Vec::new();
        };
        let listed = self.unsettled(now, shard, words);
        let most = (listed <= MOST_LENGTHS).then_some(listed + 2);
        let list = |records| Call::Debts {
            now,
            shard,
            records,
        };
        most.map_or(Vec::new(), |most| (0..=most).map(list).collect())
    }

    /// The number of a shard: mostly one that has debts, and now and then one at or past the last.
    fn listed_shard(&self, random: &mut Random, words: &[u64]) -> u64 {
        let (shards, any) = (self.shape.shards, random.word());
        let edges = [shards - 1, shards, shards + 1, 1 << 32, 1 << 63, u64::MAX];
        let own = self.shape.shard_of(random.pick(&self.keys).hash);
        match random.below(20) {
            0 | 1 => random.pick(&edges),
            2 => any,
            3 => random.below(shards),
            4..8 => own,
            _ => self.indebted_shard(random, words).unwrap_or(own),
        }
    }

    /// The number of some shard that has debts.
    fn indebted_shard(&self, random: &mut Random, words: &[u64]) -> Option<u64> {
        let shards = 0..self.shape.shards;
        let indebted: Vec<u64> = shards
            .filter(|&shard| self.ledger(shard, words).next().is_some())
            .collect();
        (!indebted.is_empty()).then(|| random.pick(&indebted))
    }

    /// The debts of a shard as their words have them: none if there is no such shard, and no more than it has room for.
    fn ledger<'a>(&self, shard: u64, words: &'a [u64]) -> impl Iterator<Item = u64> + use<'a> {
        let debts = self.debts();
        let row: &[u64] = if shard < self.shape.shards {
            &words[self.shape.shard(shard)]
        } else {
            &[]
        };
        let count = row.get(debts.count).map_or(0, |&count| count);
        (0..count.min(self.shape.cap))
            .map(move |place| row[debts.at(place as usize) + debt::SETTLES_AT])
    }

    /// How many debts of a shard settle after a moment.
    fn unsettled(&self, now: u64, shard: u64, words: &[u64]) -> usize {
        let settling = self.ledger(shard, words);
        settling.filter(|&settles_at| settles_at > now).count()
    }

    /// The moment at which some debt of a shard settles, or just before or after.
    fn settling(&self, random: &mut Random, shard: u64, words: &[u64]) -> Option<u64> {
        let moments: Vec<u64> = self.ledger(shard, words).collect();
        let moment = (!moments.is_empty()).then(|| random.pick(&moments))?;
        Some(random.pick(&[
            moment,
            moment,
            moment.saturating_sub(1),
            moment.saturating_add(1),
        ]))
    }
}
