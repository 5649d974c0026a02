//! The ledger: the debts of keys that lost their slots, by hash.

use oracle::layout::{self, debt};

use super::bucket::{BucketConfig, Wait, word};
use super::rows::{Gap, Rows, SweepBranches};
use super::settings::LEDGER_SCAN;
use crate::branches::{Branch, Hits};

/// The ledger, in the words of its shard.
pub struct Ledger<'a> {
    pub words: &'a mut [u64],
    pub cap: usize,
    pub hits: &'a mut Hits,
}

const SWEEP: SweepBranches = SweepBranches {
    none: Branch::SweepNoDebts,
    emptied: Branch::SweepEmptied,
    round: Branch::SweepRound,
    gone: (Branch::SweepGoneLast, Branch::SweepGoneSwap),
};

/// What a search for a debt that can go has seen: the place of the first look, and the place and moment of the soonest.
struct Soonest {
    first: usize,
    place: usize,
    settles_at: u64,
}

impl Ledger<'_> {
    /// The debts.
    fn debts(&mut self) -> Rows<'_> {
        Rows {
            words: self.words,
            items: layout::debts(self.cap),
            index: layout::debt_index(self.cap),
            hits: self.hits,
        }
    }

    /// The words of the debt at a place.
    fn debt(&mut self, place: usize) -> &mut [u64] {
        &mut self.words[layout::debts(self.cap).item(place)]
    }

    /// The place of the debt of a hash.
    pub fn position(&mut self, hash: u64) -> Option<usize> {
        self.debts().position(hash, |debt| debt[debt::HASH] == hash)
    }

    /// Whether any debt has this hash.
    pub fn has_hash(&mut self, hash: u64) -> bool {
        self.debts().any(|debt| debt[debt::HASH] == hash)
    }

    /// When the debt of a hash settles, if there is one.
    pub fn settles_at(&mut self, hash: u64) -> Option<u64> {
        let place = self.position(hash)?;
        Some(self.debt(place)[debt::SETTLES_AT])
    }

    /// Adds a debt, last.
    pub fn push(&mut self, hash: u64, settles_at: u64) {
        let mut words = [0; debt::WORDS];
        words[debt::HASH] = hash;
        words[debt::SETTLES_AT] = settles_at;
        self.debts().push(&words);
    }

    /// Removes the debt of a hash; how, if there was one.
    pub fn remove(&mut self, hash: u64) -> Option<Gap> {
        let place = self.position(hash)?;
        Some(self.debts().remove_at(place))
    }

    /// Takes the debt of a hash out: when it settles.
    pub fn take(&mut self, hash: u64) -> Option<u64> {
        let settles_at = self.settles_at(hash);
        match self.remove(hash) {
            Some(Gap::Last) => self.hits.hit(Branch::TakeLast),
            Some(Gap::Filled) => self.hits.hit(Branch::TakeSwap),
            None => self.hits.hit(Branch::TakeNone),
        }
        settles_at
    }

    /// Drops settled debts, some at a time.
    pub fn sweep(&mut self, now: u64) {
        let cursor = layout::cursor(self.cap);
        self.debts()
            .sweep(cursor, LEDGER_SCAN, &SWEEP, |debt, hits| {
                let settled = debt[debt::SETTLES_AT] <= now;
                if !settled {
                    hits.hit(Branch::SweepKept);
                }
                settled
            });
    }

    /// Records a debt: a hash that has one keeps the later of the two, else it goes last. The wait if there is no room for it.
    pub fn record(
        &mut self,
        hash: u64,
        settles_at: u64,
        now: u64,
        forget: bool,
    ) -> Result<(), Wait> {
        if let Some(place) = self.position(hash) {
            let held = &mut self.debt(place)[debt::SETTLES_AT];
            let kept = *held >= settles_at;
            *held = (*held).max(settles_at);
            self.hits
                .either(kept, (Branch::RecordKept, Branch::RecordRaised));
            return Ok(());
        }
        if self.debts().count() < self.cap {
            self.hits.hit(Branch::RecordRoom);
        } else {
            self.make_room(now, forget)?;
        }
        self.push(hash, settles_at);
        Ok(())
    }

    /// Makes room in a ledger at its cap. The first settled debt that is looked at goes; else the soonest one if debts may be forgotten; else
    /// none, and the wait is the soonest one's.
    fn make_room(&mut self, now: u64, forget: bool) -> Result<(), Wait> {
        let Some(soonest) = self.soonest_unless_settled(now) else {
            self.hits.hit(Branch::RecordSettled);
            return Ok(());
        };
        if self.debts().count() > LEDGER_SCAN {
            self.hits.hit(Branch::RecordAllLooks);
        }
        if !forget {
            self.hits.hit(Branch::RecordNoRoom);
            let nanos = soonest.settles_at - now;
            return Err(Wait { now, nanos });
        }
        self.hits.hit(Branch::RecordForgets);
        if soonest.place != soonest.first {
            self.hits.hit(Branch::RecordForgetsLater);
        }
        self.debts().remove_at(soonest.place);
        Ok(())
    }

    /// Looks from the cursor on. A settled debt is dropped at once, and the cursor rests there; else the soonest of those looked at, the first of equals.
    fn soonest_unless_settled(&mut self, now: u64) -> Option<Soonest> {
        let (count, cursor) = (self.debts().count(), layout::cursor(self.cap));
        let mut soonest: Option<Soonest> = None;
        for _ in 0..count.min(LEDGER_SCAN) {
            let place = self.debts().look(cursor, Branch::RecordRound);
            let settles_at = self.debt(place)[debt::SETTLES_AT];
            if settles_at <= now {
                self.debts().remove_at(place);
                return None;
            }
            self.words[cursor] += 1;
            match &mut soonest {
                None => {
                    let first = place;
                    soonest = Some(Soonest {
                        first,
                        place,
                        settles_at,
                    });
                }
                Some(held) if settles_at < held.settles_at => {
                    (held.place, held.settles_at) = (place, settles_at);
                }
                Some(held) if settles_at == held.settles_at => self.hits.hit(Branch::RecordTie),
                Some(_) => {}
            }
        }
        Some(soonest.expect("a cap is at least 1"))
    }

    /// Pays the debt of a hash down; whether there is one.
    pub fn pay_down(&mut self, hash: u64, cost: u32, config: BucketConfig) -> bool {
        let Some(place) = self.position(hash) else {
            return false;
        };
        let credit = config.time_of(cost);
        if credit > u128::from(u64::MAX) {
            self.hits.hit(Branch::RefundHeld);
        }
        let settles_at = &mut self.debt(place)[debt::SETTLES_AT];
        *settles_at = word(u128::from(*settles_at).saturating_sub(credit));
        let gone = *settles_at == 0;
        self.hits
            .either(gone, (Branch::RefundDebtGone, Branch::RefundDebt));
        true
    }
}
