//! The store on one shard: what becomes of a key that is known, and of a new one.

use oracle::Key;

use super::bucket::{Bucket, Wait};
use super::restore_debt::restore_debt;
use super::settings::Policy;
use super::shard_map::ShardMap;
use crate::branches::Branch;

/// A key's shard, and what the settings say.
pub struct Store<'a> {
    pub policy: Policy,
    pub map: ShardMap<'a>,
}

/// A try or a reservation: so many tokens, and the longest wait of a reservation. A try has none, and waits 0. A try through a class has the largest wait of
/// the classes beside.
#[derive(Clone, Copy)]
pub struct Request {
    pub cost: u32,
    pub max_wait: Option<u64>,
    pub beside: Wait,
}

impl Request {
    const fn is_try(self) -> bool {
        self.max_wait.is_none()
    }
}

/// What comes of a request.
pub enum Outcome {
    /// Granted by the key's bucket, and by all beside it.
    Granted(Wait),
    /// Denied: the wait, and that of the key's own bucket.
    Denied { wait: Wait, own: Wait },
    /// There is no room for a new key.
    NoSpace(Wait),
}

/// What a key has in its shard.
#[derive(Clone, Copy)]
pub enum Held {
    Slot,
    Debt,
    Nothing,
}

impl Store<'_> {
    /// A request of a key. A known one is touched and its bucket asked. A new one's debt is taken out, room is made, and it is given a bucket less the
    /// debt; then that is asked, and the slot stays, granted or not. If there is no room, the debt is put back.
    pub fn with_or_insert(&mut self, now: u64, key: Key, request: Request) -> Outcome {
        if let Some(place) = self.map.position(key) {
            self.hit(Branch::Known);
            let track_idle = self.policy.idle_ttl_ms.is_some();
            self.map.entry(place).touch(now, track_idle);
            return self.run(place, now, request);
        }
        self.hit(Branch::New);
        if self.map.has_hash(key.hash) {
            self.hit(Branch::NewSharedHash);
        }
        let owed = self.map.ledger().take(key.hash);
        if let Err(wait) = self.make_room(now) {
            if let Some(settles_at) = owed {
                self.hit(Branch::SpacePutBack);
                self.map.ledger().push(key.hash, settles_at);
            }
            return Outcome::NoSpace(wait);
        }
        let bucket = restore_debt(self.policy.config, now, owed, self.map.hits);
        let place = self.map.insert(key, bucket, now);
        let outcome = self.run(place, now, request);
        if let Outcome::Denied { own, .. } = outcome
            && request.is_try()
        {
            self.map.hits.either(
                own.nanos > 0,
                (Branch::CountAppended, Branch::CountAppendedNone),
            );
        }
        outcome
    }

    /// Room for a new slot: the idle sweep if there is an idle time, the ledger's sweep, and an eviction if the shard is at its cap.
    fn make_room(&mut self, now: u64) -> Result<(), Wait> {
        match self.policy.idle_ttl_ms {
            Some(ttl_ms) => self.map.sweep_idle(self.policy.config, now, ttl_ms),
            None => self.hit(Branch::IdleOff),
        }
        self.map.ledger().sweep(now);
        if self.map.slots().count() < self.map.cap {
            self.hit(Branch::EvictRoom);
            return Ok(());
        }
        self.map.evict_one(&self.policy, now)
    }

    /// Asks the bucket of the slot at a place. Only a grant is stored, and that the bucket itself turned a try away.
    fn run(&mut self, place: usize, now: u64, request: Request) -> Outcome {
        let mut entry = self.map.entry(place);
        let bucket = entry.bucket(self.policy.config, now);
        let own = bucket.wait(request.cost);
        let wait = own.longer(request.beside);
        if wait.nanos > request.max_wait.unwrap_or(0) {
            if !request.is_try() {
                entry.leave_count(Branch::CountReserve);
            } else if own.nanos == 0 {
                entry.leave_count(Branch::CountClass);
            } else {
                entry.turn_away();
            }
            return Outcome::Denied { wait, own };
        }
        entry.leave_count(Branch::CountGrant);
        entry.store(bucket.granted(request.cost));
        Outcome::Granted(wait)
    }

    /// The bucket that a key has, or would be given; nothing is touched.
    pub fn view(&mut self, now: u64, key: Key) -> (Bucket, Held) {
        let config = self.policy.config;
        if let Some(place) = self.map.position(key) {
            return (self.map.entry(place).bucket(config, now), Held::Slot);
        }
        let owed = self.map.ledger().settles_at(key.hash);
        let held = if owed.is_some() {
            Held::Debt
        } else {
            Held::Nothing
        };
        (restore_debt(config, now, owed, self.map.hits), held)
    }

    /// Gives tokens back: to the slot, else to the debt of the hash; whether there was either.
    pub fn refund(&mut self, key: Key, cost: u32) -> bool {
        let config = self.policy.config;
        if let Some(place) = self.map.position(key) {
            self.map.entry(place).refund(config, cost);
            return true;
        }
        let known = self.map.ledger().pay_down(key.hash, cost, config);
        if !known {
            self.hit(Branch::RefundUnknown);
        }
        known
    }

    /// A branch was taken.
    pub fn hit(&mut self, branch: Branch) {
        self.map.hits.hit(branch);
    }
}
