//! Calls by hardware address: the call, and our library's answer.

use core::fmt;

use limiter_sys::modem;
use oracle::Key;

use crate::call::Call;
use crate::lent::Lent;
use crate::library::{RawSettings, told};
use crate::reply::Reply;

/// One call by address: the bytes that are lent as the address, be they one or not, and the call on a key that stands for all else that is asked.
#[derive(Debug, Clone, PartialEq, Eq)]
pub struct ByAddress {
    pub bytes: Vec<u8>,
    call: Call,
}

impl ByAddress {
    /// The call by address that asks what `call` asks, if there is one: a try, a reservation, a peek, a refund or a removal.
    pub fn new(bytes: Vec<u8>, call: Call) -> Option<Self> {
        let offered = match call {
            Call::Try { .. }
            | Call::Reserve { .. }
            | Call::Peek { .. }
            | Call::Refund { .. }
            | Call::Remove { .. } => true,
            Call::SetUp
            | Call::ClassSetUp
            | Call::ClassClear
            | Call::Through { .. }
            | Call::Debts { .. }
            | Call::Available { .. }
            | Call::Clear
            | Call::Length
            | Call::TurnedAway { .. } => false,
        };
        offered.then_some(Self { bytes, call })
    }

    /// The same call on a key.
    pub const fn on(&self, key: Key) -> Call {
        match self.call {
            Call::Try { now, cost, .. } => Call::Try { now, key, cost },
            Call::Reserve {
                now,
                cost,
                max_wait,
                ..
            } => Call::Reserve {
                now,
                key,
                cost,
                max_wait,
            },
            Call::Peek { now, cost, .. } => Call::Peek { now, key, cost },
            Call::Refund { cost, .. } => Call::Refund { key, cost },
            Call::Remove { .. } => Call::Remove { key },
            other => other,
        }
    }

    /// The library's answer. The bytes end where a page begins that nobody may touch.
    pub fn ask(&self, s: RawSettings, words: &mut [u64], room: &mut Lent) -> Reply {
        let address = lend(room, &self.bytes);
        told(match self.call {
            Call::Try { now, cost, .. } => modem::try_acquire(s, words, now, address, cost),
            Call::Reserve {
                now,
                cost,
                max_wait,
                ..
            } => modem::reserve(s, words, now, address, cost, max_wait),
            Call::Peek { now, cost, .. } => modem::peek(s, words, now, address, cost),
            Call::Refund { cost, .. } => modem::refund(s, words, address, cost),
            Call::Remove { .. } => modem::remove(s, words, address),
            _ => unreachable!("no such call by address"),
        })
    }
}

/// The first bytes, how many there are, and the call on key 0 of hash 0.
impl fmt::Display for ByAddress {
    fn fmt(&self, f: &mut fmt::Formatter<'_>) -> fmt::Result {
        let shown = &self.bytes[..self.bytes.len().min(8)];
        let call = self.on(Key { hash: 0, key: 0 });
        write!(f, "{shown:02x?} of {} bytes: {call}", self.bytes.len())
    }
}

/// Lends these bytes, at the end of the room.
fn lend<'a>(room: &'a mut Lent, bytes: &[u8]) -> &'a [u8] {
    room.fill(&vec![0; bytes.len().div_ceil(size_of::<u64>())]);
    let words = room.words();
    let len = size_of_val(words);
    // SAFETY: the bytes of these words, borrowed as long as they are.
    let all = unsafe { core::slice::from_raw_parts_mut(words.as_mut_ptr().cast::<u8>(), len) };
    let lent = &mut all[len - bytes.len()..];
    lent.copy_from_slice(bytes);
    lent
}
