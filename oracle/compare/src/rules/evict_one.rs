//! Eviction: which slot of a shard at its cap goes, and its debt.

use oracle::layout::{self, slot};

use super::bucket::{BucketConfig, Wait};
use super::rows::Gap;
use super::settings::{CLOCK_SCAN, MIN_REFUSAL_WAIT, Policy};
use super::shard_map::ShardMap;
use crate::branches::Branch;

/// The slot that goes.
enum Victim {
    /// A full one: nothing is lost with it.
    Recovered(usize),
    /// One that owes.
    Limited(Limited),
}

/// A slot that owes, how long it takes to recover, and whether it had the mark.
#[derive(Clone, Copy)]
struct Limited {
    place: usize,
    recovers_in: Wait,
    marked: bool,
}

/// What the looks of an eviction have seen so far.
#[derive(Default)]
struct Scan {
    /// The first full slot.
    recovered: Option<usize>,
    /// The first slot that owes.
    limited: Option<Limited>,
    /// The first slot that owes and has no mark.
    unmarked: Option<Limited>,
    /// How long the soonest of those that owe takes to recover.
    soonest: Option<Wait>,
}

impl Scan {
    /// A slot that owes was looked at.
    fn saw(&mut self, limited: Limited) {
        let wait = limited.recovers_in;
        self.soonest = Some(self.soonest.map_or(wait, |soonest| soonest.sooner(wait)));
        self.limited.get_or_insert(limited);
        if !limited.marked {
            self.unmarked.get_or_insert(limited);
        }
    }

    /// Who goes of all that were looked at: the first full slot; else the first without the mark; else the first.
    fn victim(&self) -> Victim {
        match (self.recovered, self.unmarked.or(self.limited)) {
            (Some(place), _) => Victim::Recovered(place),
            (None, Some(limited)) => Victim::Limited(limited),
            (None, None) => unreachable!("a shard at its cap has a slot"),
        }
    }
}

impl ShardMap<'_> {
    /// Evicts one slot; the wait if none can go. The hand is left past its place, since the slot that moves there has just come.
    pub fn evict_one(&mut self, policy: &Policy, now: u64) -> Result<(), Wait> {
        let (victim, scan) = self.scan(policy.config, now);
        let place = match victim {
            Victim::Recovered(place) => place,
            Victim::Limited(limited) => {
                self.record_debt(limited, &scan, now, policy.forget_debt)?;
                limited.place
            }
        };
        let gap = self.slots().remove_at(place);
        self.hits.either(
            gap == Gap::Last,
            (Branch::EvictGoneLast, Branch::EvictGoneSwap),
        );
        self.words[layout::HAND] = place as u64 + 1;
        Ok(())
    }

    /// Looks from the hand on, clearing marks, up to the first full slot without one: who goes, and what was seen.
    fn scan(&mut self, config: BucketConfig, now: u64) -> (Victim, Scan) {
        let (count, mut scan) = (self.slots().count(), Scan::default());
        for _ in 0..count.min(CLOCK_SCAN) {
            let place = self.slots().look(layout::HAND, Branch::EvictRound);
            self.words[layout::HAND] += 1;
            let mut entry = self.entry(place);
            let (marked, bucket) = (entry.take_mark(), entry.bucket(config, now));
            if !bucket.is_full() {
                let recovers_in = bucket.recovers_in();
                scan.saw(Limited {
                    place,
                    recovers_in,
                    marked,
                });
            } else if marked {
                scan.recovered.get_or_insert(place);
            } else {
                self.hits.hit(Branch::EvictAtOnce);
                return (Victim::Recovered(place), scan);
            }
        }
        if count > CLOCK_SCAN {
            self.hits.hit(Branch::EvictAllLooks);
        }
        if scan.recovered.is_some() {
            self.hits.hit(Branch::EvictFirstFull);
        }
        (scan.victim(), scan)
    }

    /// Records the debt of a slot that is to go. If there is no room for it, the wait is until a slot recovers or a debt settles, and at
    /// least 1 ms.
    fn record_debt(
        &mut self,
        victim: Limited,
        scan: &Scan,
        now: u64,
        forget: bool,
    ) -> Result<(), Wait> {
        let hash = self.entry(victim.place).words[slot::HASH];
        let settles_at = victim.recovers_in.moment();
        if let Err(ledger) = self.ledger().record(hash, settles_at, now, forget) {
            let soonest = scan.soonest.unwrap_or(victim.recovers_in);
            return Err(self.no_space(soonest, ledger));
        }
        self.hits.either(
            victim.marked,
            (Branch::EvictFirstLooked, Branch::EvictFirstUnmarked),
        );
        let is_first = scan
            .limited
            .is_some_and(|first| first.place == victim.place);
        if !victim.marked && !is_first {
            self.hits.hit(Branch::EvictUnmarkedLater);
        }
        Ok(())
    }

    /// The wait of a refusal for space, of the soonest slot's and the ledger's.
    fn no_space(&mut self, soonest: Wait, ledger: Wait) -> Wait {
        let wait = soonest.sooner(ledger);
        self.hits.hit(if wait.nanos < MIN_REFUSAL_WAIT {
            Branch::SpaceFloor
        } else if wait == soonest {
            Branch::SpaceSlot
        } else {
            Branch::SpaceLedger
        });
        wait.at_least(MIN_REFUSAL_WAIT)
    }
}
