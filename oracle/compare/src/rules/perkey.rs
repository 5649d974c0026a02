//! The calls with a key, each lent the part of its key's shard alone; a try through a class the buckets of the classes too.

use oracle::{Key, layout};

use super::bucket::{BucketConfig, Wait};
use super::classes::Chain;
use super::decision::{IMPOSSIBLE, NONE, acquired, counted, known, retry};
use super::settings::Policy;
use super::shard_map::ShardMap;
use super::store::{Held, Outcome, Request, Store};
use super::turned_away::turned_away;
use crate::branches::{Branch, Hits};
use crate::call::Call;
use crate::given::Given;
use crate::reply::Reply;

/// A call with a key. Every slot that comes adds 1 to the total, and every slot that goes takes 1 from it.
pub fn answer(given: &Given, words: &mut [u64], call: &Call, key: Key, hits: &mut Hits) -> Reply {
    let shape = given.shape();
    let count = shape.shard(shape.shard_of(key.hash)).start + layout::SLOTS.count;
    let before = words[count];
    let reply = answer_in_shard(given, words, call, key, hits);
    words[layout::TOTAL] = words[layout::TOTAL] - before + words[count];
    reply
}

/// The same but for the total. Remove and the look at a count ask nothing of the rate; all others ask whether there is one.
fn answer_in_shard(
    given: &Given,
    words: &mut [u64],
    call: &Call,
    key: Key,
    hits: &mut Hits,
) -> Reply {
    let (settings, shape) = (given.settings(), given.shape());
    let (shards, classes) = words.split_at_mut(shape.words());
    let map = ShardMap {
        words: &mut shards[shape.shard(shape.shard_of(key.hash))],
        cap: shape.room(),
        hits,
    };
    let no_rate = settings.rate.is_none();
    match *call {
        Call::Remove { key } => return remove(map, key, no_rate),
        Call::TurnedAway { key } => return turned_away(map, key, no_rate),
        _ => {}
    }
    let Some(rate) = settings.rate else {
        return closed(call, hits);
    };
    let policy = Policy::of(&settings, &rate);
    let mut store = Store { policy, map };
    match *call {
        Call::Try { now, key, cost } => store.try_(now, key, cost),
        Call::Reserve {
            now,
            key,
            cost,
            max_wait,
        } => {
            let request = Request {
                cost,
                max_wait: Some(max_wait),
                beside: Wait::none(now),
            };
            store.reserve(now, key, request)
        }
        Call::Through {
            now,
            key,
            class,
            cost,
        } => store.through(now, key, cost, &Chain::of(given, class), classes),
        Call::Peek { now, key, cost } => store.peek(now, key, cost),
        Call::Available { now, key } => store.available(now, key),
        Call::Refund { key, cost } => known(store.refund(key, cost)),
        _ => unreachable!("the other calls are answered before"),
    }
}

/// Remove forgets the key, also of a closed limiter.
fn remove(mut map: ShardMap, key: Key, closed: bool) -> Reply {
    let gone = map.remove(key);
    if closed {
        map.hits
            .either(gone, (Branch::ClosedRemove, Branch::ClosedRemoveUnknown));
    }
    known(gone)
}

/// A closed limiter grants a cost of 0 alone, and no reservation; it has no tokens and knows nobody.
fn closed(call: &Call, hits: &mut Hits) -> Reply {
    use Branch::*;
    let (branch, answer) = match *call {
        Call::Try { now, cost: 0, .. } => (ClosedTryZero, acquired(Wait::none(now))),
        Call::Try { .. } => (ClosedTry, IMPOSSIBLE),
        Call::Through { now, cost: 0, .. } => (ClosedThroughZero, acquired(Wait::none(now))),
        Call::Through { .. } => (ClosedThrough, IMPOSSIBLE),
        Call::Peek { now, cost: 0, .. } => (ClosedPeekZero, acquired(Wait::none(now))),
        Call::Peek { .. } => (ClosedPeek, IMPOSSIBLE),
        Call::Reserve { cost: 0, .. } => (ClosedReserveZero, NONE),
        Call::Reserve { .. } => (ClosedReserve, NONE),
        Call::Available { .. } => (ClosedAvailable, counted(0)),
        _ => (ClosedRefund, NONE),
    };
    hits.hit(branch);
    answer
}

/// Whether no class can decide a call that is not refused: all but some tries through a class are such. A class cannot where the limiter is closed, where the
/// cost is 0 or over the key's own burst, and where all on the chain grant it.
pub fn is_passed(given: &Given, words: &[u64], call: &Call) -> bool {
    let (
        Call::Through {
            now, class, cost, ..
        },
        Some(rate),
    ) = (*call, given.settings().rate)
    else {
        return true;
    };
    let chain = Chain::of(given, class);
    let classes = &words[given.shape().words()..];
    let own = BucketConfig::of(&rate).capacity();
    let grants = || !chain.is_over(cost) && chain.asked(classes, now, cost).wait.nanos == 0;
    cost == 0 || cost > own || grants()
}

impl Store<'_> {
    /// Whether a cost is over the burst, so that no bucket can ever meet it.
    fn over(&self, cost: u32) -> bool {
        cost > self.policy.config.capacity()
    }

    /// Try: a cost over the burst is impossible and a cost of 0 is met, and neither touches the memory; any other is asked of the store.
    fn try_(&mut self, now: u64, key: Key, cost: u32) -> Reply {
        if self.over(cost) {
            self.hit(Branch::TryOver);
            return IMPOSSIBLE;
        }
        if cost == 0 {
            self.hit(Branch::TryZero);
            return acquired(Wait::none(now));
        }
        let request = Request {
            cost,
            max_wait: None,
            beside: Wait::none(now),
        };
        let (branch, answer) = match self.with_or_insert(now, key, request) {
            Outcome::Granted(wait) => (Branch::TryGranted, acquired(wait)),
            Outcome::Denied { wait, .. } => (Branch::TryDenied, retry(wait)),
            Outcome::NoSpace(wait) => (Branch::SpaceTry, retry(wait)),
        };
        self.hit(branch);
        answer
    }

    /// A try through a class: over any burst it is impossible, and a cost of 0 is met, and neither touches the memory. It is granted if the key's bucket and
    /// those of the chain grant it, and then all are charged; else none is, and the wait is the largest of theirs. A refusal for space ends it before.
    fn through(
        &mut self,
        now: u64,
        key: Key,
        cost: u32,
        chain: &Chain,
        classes: &mut [u64],
    ) -> Reply {
        if self.over(cost) || chain.is_over(cost) {
            let own = self.over(cost);
            let branches = (Branch::ThroughOver, Branch::ThroughOverClass);
            self.map.hits.either(own, branches);
            return IMPOSSIBLE;
        }
        if cost == 0 {
            self.hit(Branch::ThroughZero);
            return acquired(Wait::none(now));
        }
        let said = chain.asked(classes, now, cost);
        let request = Request {
            cost,
            max_wait: None,
            beside: said.wait,
        };
        match self.with_or_insert(now, key, request) {
            Outcome::NoSpace(wait) => {
                let asked = said.wait.nanos > 0;
                let branches = (Branch::ThroughSpaceDenied, Branch::ThroughSpace);
                self.map.hits.either(asked, branches);
                return retry(wait);
            }
            Outcome::Denied { wait, own } => {
                chain.tell(classes, now, cost, self.map.hits);
                self.tell_denied(own, said.wait, said.above);
                return retry(wait);
            }
            Outcome::Granted(_) => {}
        }
        chain.tell(classes, now, cost, self.map.hits);
        let branches = (Branch::ThroughLongest, Branch::ThroughGranted);
        self.map.hits.either(chain.is_longest(), branches);
        chain.charge(classes, now, cost);
        acquired(Wait::none(now))
    }

    /// Who denied a try through a class, and whose wait was told.
    fn tell_denied(&mut self, own: Wait, beside: Wait, above: bool) {
        self.hit(if beside.nanos == 0 {
            Branch::ThroughDeniedOwn
        } else if own.nanos == 0 {
            Branch::ThroughDeniedClass
        } else if own.nanos >= beside.nanos {
            Branch::ThroughDeniedOwnLonger
        } else {
            Branch::ThroughDeniedClassLonger
        });
        if above {
            self.hit(Branch::ThroughDeniedAbove);
        }
    }

    /// Reserve: as try, with none in place of impossible, of a denial and of a refusal for space.
    fn reserve(&mut self, now: u64, key: Key, request: Request) -> Reply {
        if self.over(request.cost) {
            self.hit(Branch::ReserveOver);
            return NONE;
        }
        if request.cost == 0 {
            self.hit(Branch::ReserveZero);
            return acquired(Wait::none(now));
        }
        let (branch, answer) = match self.with_or_insert(now, key, request) {
            Outcome::Granted(wait) if wait.nanos == 0 => (Branch::ReserveNow, acquired(wait)),
            Outcome::Granted(wait) => {
                if Some(wait.nanos) == request.max_wait {
                    self.hit(Branch::ReserveLongest);
                }
                (Branch::ReserveLater, acquired(wait))
            }
            Outcome::Denied { .. } => (Branch::ReserveNone, NONE),
            Outcome::NoSpace(_) => (Branch::SpaceReserve, NONE),
        };
        self.hit(branch);
        answer
    }

    /// Peek: what the bucket that the key has, or would be given, says to the cost.
    fn peek(&mut self, now: u64, key: Key, cost: u32) -> Reply {
        use Branch::*;
        if self.over(cost) {
            self.hit(PeekOver);
            return IMPOSSIBLE;
        }
        if cost == 0 {
            self.hit(PeekZero);
        }
        let (bucket, held) = self.view(now, key);
        let wait = bucket.wait(cost);
        let there = wait.nanos == 0;
        self.hit(match (held, there) {
            (Held::Slot, true) => PeekSlotNow,
            (Held::Slot, false) => PeekSlotRetry,
            (Held::Debt, true) => PeekDebtNow,
            (Held::Debt, false) => PeekDebtRetry,
            (Held::Nothing, true) => PeekFreshNow,
            (Held::Nothing, false) => PeekFreshRetry,
        });
        if there { acquired(wait) } else { retry(wait) }
    }

    /// Available: the tokens in that bucket.
    fn available(&mut self, now: u64, key: Key) -> Reply {
        let (bucket, held) = self.view(now, key);
        self.hit(match held {
            Held::Slot => Branch::AvailableSlot,
            Held::Debt => Branch::AvailableDebt,
            Held::Nothing => Branch::AvailableFresh,
        });
        if bucket.is_below_empty() {
            self.hit(Branch::AvailableBelow);
        }
        counted(bucket.available().into())
    }
}
