//! The C interface of the verified library `liblimiter.a`, as Rust declares it.
//!
//! `bindings/c/limiter.h` says what each call means, what it asks and what it answers; the names here are those of the header. The crate
//! `limiter` is the safe and convenient way to call the library. [`slices`] has the same calls on slices, where a caller wants the numbers as
//! they are.

#![no_std]

pub mod classes;
pub mod debts;
pub mod converter;
pub mod modem;
pub mod slices;

/// The settings of a store: `limiter_settings` of the header. A flag is set if it is not 0.
#[repr(C)]
#[derive(Debug, Clone, Copy, PartialEq, Eq, Hash, Default)]
pub struct LimiterSettings {
    /// The nanoseconds in which `amount` tokens come back.
    pub period: u64,
    /// The keys to make room for.
    pub max_keys: u64,
    /// The shards asked for.
    pub shards: u64,
    /// The idle time in nanoseconds, read only if `has_idle` is set.
    pub idle: u64,
    /// Set: there is no rate, and `amount`, `period`, `burst` and `initial` are not read.
    pub closed: u32,
    /// The tokens that come back in a period.
    pub amount: u32,
    /// Not set: the burst is the amount.
    pub has_burst: u32,
    /// The most tokens in a bucket.
    pub burst: u32,
    /// Not set: a new bucket is full.
    pub has_initial: u32,
    /// The tokens in a new bucket, cut to the burst.
    pub initial: u32,
    /// Not set: no key is forgotten for being idle.
    pub has_idle: u32,
    /// When full: not set, a new key is turned away; set, a debt is forgotten.
    pub forget_debt: u32,
    /// How many classes the store has. [`classes`] and the two calls without a table that make or clear a store do not read it.
    pub classes: u32,
}

/// A class, a limit above the keys: `limiter_class` of the header. A flag is set if it is not 0.
#[repr(C)]
#[derive(Debug, Clone, Copy, PartialEq, Eq, Hash, Default)]
pub struct LimiterClass {
    /// The tokens that come back in a period.
    pub amount: u64,
    /// The nanoseconds in which `amount` tokens come back.
    pub period: u64,
    /// Not set: the burst is the amount.
    pub has_burst: u64,
    /// The most tokens in the bucket, read only if `has_burst` is set.
    pub burst: u64,
    /// Not set: no class is above this one.
    pub has_parent: u64,
    /// The number of the class above, read only if `has_parent` is set.
    pub parent: u64,
}

/// An answer: `limiter_reply` of the header.
#[repr(C)]
#[derive(Debug, Clone, Copy, PartialEq, Eq, Hash)]
pub struct LimiterReply {
    /// One of the codes below.
    pub code: u64,
    /// A wait in nanoseconds, tokens, or a count of tries, of keys or of debts, as the call says; else 0.
    pub number: u64,
    /// `now` and the wait: when granted tokens may be used, or when to try again; else 0.
    pub moment: u64,
}

/// The identity of a modem: `limiter_identity` of the header.
#[repr(C)]
#[derive(Debug, Clone, Copy, PartialEq, Eq, Hash)]
pub struct LimiterIdentity {
    /// [`LIMITER_DONE`], or [`LIMITER_BAD_ADDRESS`] or [`LIMITER_GROUP_ADDRESS`].
    pub code: u64,
    /// The hash of the address; 0 where it is refused.
    pub hash: u64,
    /// Its key; 0 where it is refused.
    pub key: u64,
}

// The layout that crates/limiter/src/lib.rt, crates/limiter_modems/src/lib.rt and, for the table of classes, crates/classes read, and the header asserts.
const _: () = {
    use core::mem::offset_of;
    assert!(size_of::<usize>() == 8, "the library is for 64 bits");
    assert!(size_of::<LimiterSettings>() == 72 && align_of::<LimiterSettings>() == 8);
    assert!(offset_of!(LimiterSettings, period) == 0);
    assert!(offset_of!(LimiterSettings, max_keys) == 8);
    assert!(offset_of!(LimiterSettings, shards) == 16);
    assert!(offset_of!(LimiterSettings, idle) == 24);
    assert!(offset_of!(LimiterSettings, closed) == 32);
    assert!(offset_of!(LimiterSettings, amount) == 36);
    assert!(offset_of!(LimiterSettings, has_burst) == 40);
    assert!(offset_of!(LimiterSettings, burst) == 44);
    assert!(offset_of!(LimiterSettings, has_initial) == 48);
    assert!(offset_of!(LimiterSettings, initial) == 52);
    assert!(offset_of!(LimiterSettings, has_idle) == 56);
    assert!(offset_of!(LimiterSettings, forget_debt) == 60);
    assert!(offset_of!(LimiterSettings, classes) == 64);
    assert!(size_of::<LimiterClass>() == 48 && align_of::<LimiterClass>() == 8);
    assert!(offset_of!(LimiterClass, amount) == 0);
    assert!(offset_of!(LimiterClass, period) == 8);
    assert!(offset_of!(LimiterClass, has_burst) == 16);
    assert!(offset_of!(LimiterClass, burst) == 24);
    assert!(offset_of!(LimiterClass, has_parent) == 32);
    assert!(offset_of!(LimiterClass, parent) == 40);
    assert!(size_of::<LimiterReply>() == 24 && align_of::<LimiterReply>() == 8);
    assert!(offset_of!(LimiterReply, code) == 0);
    assert!(offset_of!(LimiterReply, number) == 8);
    assert!(offset_of!(LimiterReply, moment) == 16);
    assert!(size_of::<LimiterIdentity>() == 24 && align_of::<LimiterIdentity>() == 8);
    assert!(offset_of!(LimiterIdentity, code) == 0);
    assert!(offset_of!(LimiterIdentity, hash) == 8);
    assert!(offset_of!(LimiterIdentity, key) == 16);
};

/// Granted, from the moment on; or accepted, known, counted.
pub const LIMITER_DONE: u64 = 0;
/// Not now; the number is the wait in nanoseconds, and the moment when it is over.
pub const LIMITER_RETRY: u64 = 1;
/// Never: the cost is over the burst, or over that of a class on the chain, or the limiter is closed.
pub const LIMITER_IMPOSSIBLE: u64 = 2;
/// No reservation; or the key is unknown.
pub const LIMITER_NONE: u64 = 3;

/// Refused as 1: the amount is not 1 to 65,535.
pub const LIMITER_BAD_AMOUNT: u64 = 11;
/// Refused as 2: the period is not 1 to 2^46 ns.
pub const LIMITER_BAD_PERIOD: u64 = 12;
/// Refused as 3: the burst is not 1 to 65,535.
pub const LIMITER_BAD_BURST: u64 = 13;
/// Refused as 4: more than 65,536 keys, 4,096 in a conversion, or 64 shards.
pub const LIMITER_BAD_SIZES: u64 = 14;
/// Refused as 5: another number of words than [`limiter_words`] returns, or a count in them is more than a shard holds.
pub const LIMITER_BAD_MEMORY: u64 = 15;
/// Refused as 6: the moment is after 2^62 ns.
pub const LIMITER_BAD_MOMENT: u64 = 16;
/// Refused as 7: the longest wait is over 2^46 ns.
pub const LIMITER_BAD_MAX_WAIT: u64 = 17;
/// Refused as 11: the address is not six bytes.
pub const LIMITER_BAD_ADDRESS: u64 = 21;
/// Refused as 12: the address is that of a group.
pub const LIMITER_GROUP_ADDRESS: u64 = 22;
/// Refused as 13: the buffer is shorter than the line.
pub const LIMITER_BAD_BUFFER: u64 = 23;
/// Refused as 14: more than 64 classes, or a class or parent that is not in the table.
pub const LIMITER_BAD_CLASS: u64 = 24;
/// Refused as 15: a chain of parents does not end within 8 classes.
pub const LIMITER_BAD_CHAIN: u64 = 25;
/// Refused as 16: the store has no shard of this number.
pub const LIMITER_BAD_SHARD: u64 = 26;
/// Refused as 17: fewer records are lent than there are debts to write.
pub const LIMITER_BAD_RECORDS: u64 = 27;
/// Refused as 18, by a conversion: two slots of one hash and key, or two debts of one hash.
pub const LIMITER_TWINS: u64 = 28;
/// Refused as 19, by a conversion: a word past a count is not 0.
pub const LIMITER_USED_PAST: u64 = 29;

/// The most classes of a table.
pub const LIMITER_MOST_CLASSES: usize = 64;
/// The most classes of a chain, the first included.
pub const LIMITER_LONGEST_CHAIN: usize = 8;

/// The bytes of the longest desk line that is written, LF counted.
pub const LIMITER_LONGEST_LINE: usize = 76;

/// Every program that has this crate in it refers to the version by its name, so a library of another minor version does not link.
#[used]
static VERSION_NEEDED: extern "C" fn() -> u32 = limiter_version_0_9;

// The three functions that are lent nothing are safe with any arguments. What the others ask of a caller: those with `words` and `len`, that these are
// words that it may read, and write unless they are `const`, for the length of the call; those with `buffer` and `len`, that these are bytes that it may
// write for the length of the call. Where `len` is 0 the pointer may be null.
#[allow(missing_docs, reason = "bindings/c/limiter.h has a comment on each")]
unsafe extern "C" {
    pub safe fn limiter_words(settings: LimiterSettings) -> u64;
    pub safe fn limiter_key_hash(key: u64) -> u64;
    pub safe fn limiter_version_0_9() -> u32;

    pub fn limiter_set_up(settings: LimiterSettings, words: *mut u64, len: usize) -> LimiterReply;
    pub fn limiter_try(
        settings: LimiterSettings,
        words: *mut u64,
        len: usize,
        now: u64,
        hash: u64,
        key: u64,
        cost: u32,
    ) -> LimiterReply;
    pub fn limiter_reserve(
        settings: LimiterSettings,
        words: *mut u64,
        len: usize,
        now: u64,
        hash: u64,
        key: u64,
        cost: u32,
        max_wait: u64,
    ) -> LimiterReply;
    pub fn limiter_peek(
        settings: LimiterSettings,
        words: *const u64,
        len: usize,
        now: u64,
        hash: u64,
        key: u64,
        cost: u32,
    ) -> LimiterReply;
    pub fn limiter_available(
        settings: LimiterSettings,
        words: *const u64,
        len: usize,
        now: u64,
        hash: u64,
        key: u64,
    ) -> LimiterReply;
    pub fn limiter_turned_away(
        settings: LimiterSettings,
        words: *const u64,
        len: usize,
        hash: u64,
        key: u64,
    ) -> LimiterReply;
    pub fn limiter_refund(
        settings: LimiterSettings,
        words: *mut u64,
        len: usize,
        hash: u64,
        key: u64,
        cost: u32,
    ) -> LimiterReply;
    pub fn limiter_remove(
        settings: LimiterSettings,
        words: *mut u64,
        len: usize,
        hash: u64,
        key: u64,
    ) -> LimiterReply;
    pub fn limiter_clear(settings: LimiterSettings, words: *mut u64, len: usize) -> LimiterReply;
    pub fn limiter_length(settings: LimiterSettings, words: *const u64, len: usize)
    -> LimiterReply;

    pub fn limiter_line_try(
        buffer: *mut u8,
        len: usize,
        now: u64,
        key: u64,
        cost: u32,
    ) -> LimiterReply;
    pub fn limiter_line_peek(
        buffer: *mut u8,
        len: usize,
        now: u64,
        key: u64,
        cost: u32,
    ) -> LimiterReply;
    pub fn limiter_line_reserve(
        buffer: *mut u8,
        len: usize,
        now: u64,
        key: u64,
        cost: u32,
        max_wait: u64,
    ) -> LimiterReply;
    pub fn limiter_line_refund(buffer: *mut u8, len: usize, key: u64, cost: u32) -> LimiterReply;
    pub fn limiter_line_remove(buffer: *mut u8, len: usize, key: u64) -> LimiterReply;
}
