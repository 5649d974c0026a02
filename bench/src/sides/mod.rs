//! What the driver asks: our library over its C interface and through the crate, the published Rust, the program by hand where it is there, and nobody.

#[cfg(feature = "by-hand")]
mod by_hand;
mod c_call;
mod nobody;
mod rust;
mod through_crate;

use published::{Answer, Key};

use crate::scenario::{Call, Op, Setup};

#[cfg(feature = "by-hand")]
pub use by_hand::ByHand;
pub use c_call::CCall;
pub use nobody::{ClockOnly, Nobody};
pub use rust::Rust;
pub use through_crate::ThroughCrate;

/// What the driver asks.
pub trait Side {
    fn new(setup: &Setup) -> Self;
    fn ask(&mut self, call: &Call) -> Answer;
}

/// A store. The calls answer with a code and a number, as our library numbers them; its moment, which the Rust lacks, is left out.
pub trait Store {
    /// A fresh one.
    fn fresh(setup: &Setup) -> Self;
    fn set_up(&mut self) -> Answer;
    fn try_(&mut self, now: u64, key: Key, cost: u32) -> Answer;
    fn through(&mut self, now: u64, key: Key, cost: u32) -> Answer;
    fn reserve(&mut self, now: u64, key: Key, cost: u32) -> Answer;
    fn peek(&mut self, now: u64, key: Key, cost: u32) -> Answer;
    fn available(&mut self, now: u64, key: Key) -> Answer;
    fn refund(&mut self, key: Key, cost: u32) -> Answer;
    fn remove(&mut self, key: Key) -> Answer;
    fn length(&mut self) -> Answer;
    /// How many debts of the first shard are listed, into records that the store keeps.
    fn debts(&mut self, now: u64) -> Answer;
}

impl<S: Store> Side for S {
    fn new(setup: &Setup) -> Self {
        Self::fresh(setup)
    }

    #[inline]
    fn ask(&mut self, call: &Call) -> Answer {
        match call.op {
            Op::SetUp => self.set_up(),
            Op::Try => self.try_(call.now, call.key, call.cost),
            Op::Through => self.through(call.now, call.key, call.cost),
            Op::Reserve => self.reserve(call.now, call.key, call.cost),
            Op::Peek => self.peek(call.now, call.key, call.cost),
            Op::Available => self.available(call.now, call.key),
            Op::Refund => self.refund(call.key, call.cost),
            Op::Remove => self.remove(call.key),
            Op::Length => self.length(),
            Op::Debts => self.debts(call.now),
        }
    }
}

/// The sums of codes and numbers over some calls.
pub type Sums = (u64, u64);

/// Makes the calls in order. One copy for each side, and the same text for all.
#[inline(never)]
pub fn drive<S: Side>(side: &mut S, calls: &[Call]) -> Sums {
    let mut sums: Sums = (0, 0);
    for call in calls {
        let (code, number) = side.ask(call);
        sums.0 = sums.0.wrapping_add(code);
        sums.1 = sums.1.wrapping_add(number);
    }
    sums
}
