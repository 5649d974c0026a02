//! The program by hand (../shared/limit), on words of its own.

use core::ptr::read_volatile;

use published::Answer;

use super::Side;
use crate::calls;
use crate::scenario::{Call, MAX_WAIT, Op, Setup};
use crate::settings::{Reply, Settings};

/// Settings and words. One form of the program jumps on the first place of a walk; the other, `TWO`, takes the first two places without a jump.
pub struct ByHand<const TWO: bool> {
    settings: Settings,
    words: Vec<u64>,
}

impl<const TWO: bool> Side for ByHand<TWO> {
    fn new(setup: &Setup) -> Self {
        let settings = Settings {
            period: 1_000_000_000,
            max_keys: setup.max_keys as u64,
            shards: setup.shards as u64,
            idle: setup.idle.unwrap_or(0),
            amount: setup.amount,
            has_burst: 1,
            burst: setup.burst,
            has_idle: u32::from(setup.idle.is_some()),
            forget_debt: u32::from(setup.forget_debt),
            ..Settings::default()
        };
        let words = vec![0; calls::words(&settings)];
        Self { settings, words }
    }

    #[inline]
    fn ask(&mut self, call: &Call) -> Answer {
        let (settings, words, length) = (self.settings, self.words.as_mut_ptr(), self.words.len());
        let (now, hash, key, cost) = (call.now, call.key.hash, call.key.key, call.cost);
        answer(match call.op {
            Op::Try => calls::try_::<TWO>(settings, words, length, now, hash, key, cost),
            Op::Reserve => {
                calls::reserve::<TWO>(settings, words, length, now, hash, key, cost, MAX_WAIT)
            }
            Op::Peek => calls::peek::<TWO>(settings, words, length, now, hash, key, cost),
            Op::Available => calls::available(settings, words, length, now, hash, key),
            Op::Refund => calls::refund(settings, words, length, hash, key, cost),
            Op::Remove => calls::remove(settings, words, length, hash, key),
            Op::Length => calls::length(settings, words, length),
            Op::SetUp | Op::Through | Op::Debts => return NO_SUCH_CALL,
        })
    }
}

/// No answer has this code, so a row with such a call fails.
const NO_SUCH_CALL: Answer = (u64::MAX, 0);

/// Code and number, read one by one as in the calls of the library.
#[inline]
fn answer(reply: Reply) -> Answer {
    // SAFETY: both are references.
    unsafe {
        (
            read_volatile(&raw const reply.code),
            read_volatile(&raw const reply.number),
        )
    }
}
