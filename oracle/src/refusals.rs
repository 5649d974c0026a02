//! The numbered refusals of document 01, section "Refused by number", operation by operation. They are written from that
//! page, and from 02 where it adds a call, and use nothing of the published Rust, which has none of them. They come before the Rust's own rules.
//!
//! Each function gives the number of the first refusal that applies, or `None` if the call is not refused.

use crate::layout;
use crate::settings::{Rate, Settings};
use crate::shape::Shape;

/// The largest amount and the largest burst; the smallest is 1.
pub const MOST_TOKENS: u32 = 65_535;
/// The longest period in nanoseconds; the shortest is 1.
pub const LONGEST_PERIOD: u64 = 1 << 46;
/// The most keys that can be asked for (02, request 6).
pub const MOST_KEYS: u64 = 65_536;
/// The most shards that can be asked for, before they are raised for the keys.
pub const MOST_SHARDS: u64 = 64;
/// The latest moment in nanoseconds.
pub const LATEST_MOMENT: u64 = 1 << 62;
/// The longest wait in nanoseconds that a reservation may allow.
pub const LONGEST_WAIT: u64 = 1 << 46;

/// What the refusals read of a memory.
pub trait Memory {
    /// The number of words.
    fn length(&self) -> u64;
    /// The total of slots. Asked only of a memory of the right length.
    fn total(&self) -> u64;
    /// The slot count of a shard. Asked only of a memory of the right length.
    fn slot_count(&self, shape: Shape, shard: u64) -> u64;
    /// The debt count of a shard. Asked only of a memory of the right length.
    fn debt_count(&self, shape: Shape, shard: u64) -> u64;
}

/// Words of any content.
impl Memory for [u64] {
    fn length(&self) -> u64 {
        self.len() as u64
    }

    fn total(&self) -> u64 {
        self[layout::TOTAL]
    }

    fn slot_count(&self, shape: Shape, shard: u64) -> u64 {
        self[shape.shard(shard)][layout::SLOTS.count]
    }

    fn debt_count(&self, shape: Shape, shard: u64) -> u64 {
        self[shape.shard(shard)][layout::debts(shape.room()).count]
    }
}

/// Set-up: 1 to 5.
pub fn set_up<M: Memory + ?Sized>(settings: &Settings, memory: &M) -> Option<u8> {
    let rate = settings.rate.as_ref().and_then(rate);
    rate.or_else(|| sizes(settings))
        .or_else(|| refuse(5, memory.length() != Shape::of(settings).words() as u64))
}

/// Try: 1 to 5 as set-up, 5 for a count of the key's shard or the total, then 6.
pub fn try_<M: Memory + ?Sized>(
    settings: &Settings,
    memory: &M,
    hash: u64,
    now: u64,
) -> Option<u8> {
    keyed(settings, memory, hash).or_else(|| moment(now))
}

/// Peek: as try.
pub fn peek<M: Memory + ?Sized>(
    settings: &Settings,
    memory: &M,
    hash: u64,
    now: u64,
) -> Option<u8> {
    keyed(settings, memory, hash).or_else(|| moment(now))
}

/// Available: as try.
pub fn available<M: Memory + ?Sized>(
    settings: &Settings,
    memory: &M,
    hash: u64,
    now: u64,
) -> Option<u8> {
    keyed(settings, memory, hash).or_else(|| moment(now))
}

/// Reserve: as try, then 7.
pub fn reserve<M: Memory + ?Sized>(
    settings: &Settings,
    memory: &M,
    hash: u64,
    now: u64,
    max_wait: u64,
) -> Option<u8> {
    try_(settings, memory, hash, now).or_else(|| refuse(7, max_wait > LONGEST_WAIT))
}

/// Refund: 1 to 5 as try.
pub fn refund<M: Memory + ?Sized>(settings: &Settings, memory: &M, hash: u64) -> Option<u8> {
    keyed(settings, memory, hash)
}

/// Remove: 1 to 5 as try.
pub fn remove<M: Memory + ?Sized>(settings: &Settings, memory: &M, hash: u64) -> Option<u8> {
    keyed(settings, memory, hash)
}

/// The look at a key's count: as remove (02, request 8).
pub fn turned_away<M: Memory + ?Sized>(settings: &Settings, memory: &M, hash: u64) -> Option<u8> {
    keyed(settings, memory, hash)
}

/// Clear: as set-up.
pub fn clear<M: Memory + ?Sized>(settings: &Settings, memory: &M) -> Option<u8> {
    set_up(settings, memory)
}

/// Length: 1 to 5 as set-up, 5 for the total (02, request 10).
pub fn length<M: Memory + ?Sized>(settings: &Settings, memory: &M) -> Option<u8> {
    set_up(settings, memory).or_else(|| refuse(5, memory.total() > Shape::of(settings).places()))
}

/// The list of a shard's debts (02, request 12): 1 to 5 as set-up, 6, 16 for the shard's number, then 5 for its debt count. No slot count is looked at, nor the
/// total. [`records`] comes last.
pub fn debts<M: Memory + ?Sized>(
    settings: &Settings,
    memory: &M,
    now: u64,
    shard: u64,
) -> Option<u8> {
    set_up(settings, memory)
        .or_else(|| moment(now))
        .or_else(|| {
            let shape = Shape::of(settings);
            refuse(16, shard >= shape.shards)
                .or_else(|| refuse(5, memory.debt_count(shape, shard) > shape.cap))
        })
}

/// 17: so many records are lent for so many that are to be written (02, request 12).
pub fn records(lent: usize, to_write: usize) -> Option<u8> {
    refuse(17, lent < to_write)
}

/// `number` if the call is to be refused with it.
fn refuse(number: u8, refused: bool) -> Option<u8> {
    refused.then_some(number)
}

/// 1, 2 and 3, for a limiter that is not closed.
fn rate(rate: &Rate) -> Option<u8> {
    let tokens = 1..=MOST_TOKENS;
    refuse(1, !tokens.contains(&rate.amount))
        .or_else(|| refuse(2, !(1..=LONGEST_PERIOD).contains(&rate.period)))
        .or_else(|| refuse(3, !tokens.contains(&rate.burst.unwrap_or(rate.amount))))
}

/// 4.
fn sizes(settings: &Settings) -> Option<u8> {
    refuse(
        4,
        settings.max_keys > MOST_KEYS || settings.shards > MOST_SHARDS,
    )
}

/// 1 to 5 of a call with a key.
fn keyed<M: Memory + ?Sized>(settings: &Settings, memory: &M, hash: u64) -> Option<u8> {
    set_up(settings, memory).or_else(|| {
        let shape = Shape::of(settings);
        let shard = shape.shard_of(hash);
        let slots = memory.slot_count(shape, shard);
        let over = slots > shape.cap || memory.debt_count(shape, shard) > shape.cap;
        let total = memory.total();
        refuse(5, over || total < slots || total > shape.places())
    })
}

/// 6.
fn moment(now: u64) -> Option<u8> {
    refuse(6, now > LATEST_MOMENT)
}
