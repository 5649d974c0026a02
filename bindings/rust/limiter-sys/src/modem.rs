//! The calls by hardware address: as C has them, and on slices, safe with any bytes, arguments and words.

use crate::{LimiterIdentity, LimiterReply, LimiterSettings};

// As the calls on keys, and `address` and `address_len` are bytes that may be read for the length of the call. Where `address_len` is 0 `address` may be
// null.
#[allow(missing_docs, reason = "bindings/c/limiter.h has a comment on each")]
unsafe extern "C" {
    pub fn limiter_modem_try(
        settings: LimiterSettings,
        words: *mut u64,
        len: usize,
        now: u64,
        address: *const u8,
        address_len: usize,
        cost: u32,
    ) -> LimiterReply;
    pub fn limiter_modem_reserve(
        settings: LimiterSettings,
        words: *mut u64,
        len: usize,
        now: u64,
        address: *const u8,
        address_len: usize,
        cost: u32,
        max_wait: u64,
    ) -> LimiterReply;
    pub fn limiter_modem_peek(
        settings: LimiterSettings,
        words: *const u64,
        len: usize,
        now: u64,
        address: *const u8,
        address_len: usize,
        cost: u32,
    ) -> LimiterReply;
    pub fn limiter_modem_refund(
        settings: LimiterSettings,
        words: *mut u64,
        len: usize,
        address: *const u8,
        address_len: usize,
        cost: u32,
    ) -> LimiterReply;
    pub fn limiter_modem_remove(
        settings: LimiterSettings,
        words: *mut u64,
        len: usize,
        address: *const u8,
        address_len: usize,
    ) -> LimiterReply;
    pub fn limiter_modem_identity(address: *const u8, address_len: usize) -> LimiterIdentity;
}

/// `limiter_modem_identity`: the hash and the key of an address.
#[inline]
#[must_use]
pub fn identity(address: &[u8]) -> LimiterIdentity {
    // SAFETY: the pointer and the length are those of a slice that is borrowed for the call; it reads nothing else and writes nothing.
    unsafe { limiter_modem_identity(address.as_ptr(), address.len()) }
}

/// A safe function for each C function that is lent words. The pointers and lengths are those of slices that are borrowed for the call, the words for
/// writing where the C function writes; it reads and writes nothing else.
macro_rules! by_address {
    ($($(#[$doc:meta])* $name:ident = $c:ident($words:ty, $as:ident $(, $before:ident: $b:ty)*; address $(, $after:ident: $a:ty)*);)+) => {$(
        $(#[$doc])*
        #[inline]
        pub fn $name(settings: LimiterSettings, words: $words $(, $before: $b)*, address: &[u8] $(, $after: $a)*) -> LimiterReply {
            // SAFETY: see the macro.
            unsafe { $c(settings, words.$as(), words.len() $(, $before)*, address.as_ptr(), address.len() $(, $after)*) }
        }
    )+};
}

by_address! {
    /// `limiter_modem_try`: takes tokens if they are there now.
    try_acquire = limiter_modem_try(&mut [u64], as_mut_ptr, now: u64; address, cost: u32);
    /// `limiter_modem_reserve`: takes tokens if they will be there within `max_wait`.
    reserve = limiter_modem_reserve(&mut [u64], as_mut_ptr, now: u64; address, cost: u32, max_wait: u64);
    /// `limiter_modem_peek`: what the modem's bucket would answer to a try.
    peek = limiter_modem_peek(&[u64], as_ptr, now: u64; address, cost: u32);
    /// `limiter_modem_refund`: gives tokens back.
    refund = limiter_modem_refund(&mut [u64], as_mut_ptr; address, cost: u32);
    /// `limiter_modem_remove`: forgets a modem.
    remove = limiter_modem_remove(&mut [u64], as_mut_ptr; address);
}
