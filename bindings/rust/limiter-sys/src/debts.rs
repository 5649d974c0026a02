//! The list of debts: as C has it, and on slices, safe with any arguments, words and records.

use core::time::Duration;

use crate::{LimiterReply, LimiterSettings};

/// A debt: what a store keeps of a key that it forgot before its bucket was full. It keeps the hash and not the key. `limiter_debt` of the header.
#[repr(C)]
#[derive(Debug, Clone, Copy, PartialEq, Eq, Hash, Default)]
pub struct LimiterDebt {
    /// The hash of the key.
    pub hash: u64,
    /// The moment at which the debt settles, in nanoseconds: the bucket would be full. It can be after 2^62.
    pub settles_at: u64,
}

impl LimiterDebt {
    /// The moment at which the debt settles, as a time since the start that the store's moments have.
    #[must_use]
    pub const fn moment(self) -> Duration {
        Duration::from_nanos(self.settles_at)
    }

    /// How long it takes from `now` until the debt settles; zero if it has settled.
    #[must_use]
    pub const fn wait(self, now: Duration) -> Duration {
        self.moment().saturating_sub(now)
    }
}

// The layout that crates/limiter_debts reads and writes, and the header asserts.
const _: () = {
    use core::mem::offset_of;
    assert!(size_of::<LimiterDebt>() == 16 && align_of::<LimiterDebt>() == 8);
    assert!(offset_of!(LimiterDebt, hash) == 0);
    assert!(offset_of!(LimiterDebt, settles_at) == 8);
};

// As the calls on keys that only read, and `records` and `count` are records that may be written for the length of the call, and do not lie in the words.
// Where `count` is 0 `records` may be null.
#[allow(missing_docs, reason = "bindings/c/limiter.h has a comment on it")]
unsafe extern "C" {
    pub fn limiter_debts(
        settings: LimiterSettings,
        words: *const u64,
        len: usize,
        now: u64,
        shard: u64,
        records: *mut LimiterDebt,
        count: usize,
    ) -> LimiterReply;
}

/// `limiter_debts`: lists the debts of a shard that settle after `now`.
#[inline]
pub fn list(
    settings: LimiterSettings,
    words: &[u64],
    now: u64,
    shard: u64,
    records: &mut [LimiterDebt],
) -> LimiterReply {
    let (room, count) = (records.as_mut_ptr(), records.len());
    // SAFETY: the pointers and lengths are those of slices that are borrowed for the call, the records for writing; it reads and writes nothing else.
    unsafe {
        limiter_debts(
            settings,
            words.as_ptr(),
            words.len(),
            now,
            shard,
            room,
            count,
        )
    }
}
