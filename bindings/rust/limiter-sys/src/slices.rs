//! The calls of the library on slices: safe with any arguments and any words. All unsafe calls of it are here, in [`modem`](crate::modem),
//! [`classes`](crate::classes) and [`debts`](crate::debts).

use crate::{LimiterReply, LimiterSettings};

/// A safe function for each C function that is lent words. The pointer and the length are those of a slice that is borrowed for the call, for
/// writing where the C function writes; it reads and writes nothing else. Calls that only read may run side by side.
macro_rules! on_slices {
    ($($(#[$doc:meta])* $name:ident = $c:ident($words:ty, $as:ident $(, $argument:ident: $type:ty)*);)+) => {$(
        $(#[$doc])*
        #[inline]
        pub fn $name(settings: LimiterSettings, words: $words $(, $argument: $type)*) -> LimiterReply {
            // SAFETY: see the macro.
            unsafe { crate::$c(settings, words.$as(), words.len() $(, $argument)*) }
        }
    )+};
}

on_slices! {
    /// `limiter_set_up`: makes the words an empty store without classes.
    set_up = limiter_set_up(&mut [u64], as_mut_ptr);
    /// `limiter_try`: takes tokens if they are there now.
    try_acquire = limiter_try(&mut [u64], as_mut_ptr, now: u64, hash: u64, key: u64, cost: u32);
    /// `limiter_reserve`: takes tokens if they will be there within `max_wait`.
    reserve = limiter_reserve(&mut [u64], as_mut_ptr, now: u64, hash: u64, key: u64, cost: u32, max_wait: u64);
    /// `limiter_peek`: what the key's bucket would answer to a try.
    peek = limiter_peek(&[u64], as_ptr, now: u64, hash: u64, key: u64, cost: u32);
    /// `limiter_available`: the tokens that the key has now.
    available = limiter_available(&[u64], as_ptr, now: u64, hash: u64, key: u64);
    /// `limiter_turned_away`: how many tries of the key its own bucket has turned away.
    turned_away = limiter_turned_away(&[u64], as_ptr, hash: u64, key: u64);
    /// `limiter_refund`: gives tokens back.
    refund = limiter_refund(&mut [u64], as_mut_ptr, hash: u64, key: u64, cost: u32);
    /// `limiter_remove`: forgets a key.
    remove = limiter_remove(&mut [u64], as_mut_ptr, hash: u64, key: u64);
    /// `limiter_clear`: forgets all keys and debts of a store without classes.
    clear = limiter_clear(&mut [u64], as_mut_ptr);
    /// `limiter_length`: the number of keys that have a slot.
    length = limiter_length(&[u64], as_ptr);
}

/// A safe function for each C function that writes a desk line into a buffer. The pointer and the length are those of a slice that is borrowed for writing
/// for the call; it reads and writes nothing else.
macro_rules! on_buffers {
    ($($(#[$doc:meta])* $name:ident = $c:ident($($argument:ident: $type:ty),*);)+) => {$(
        $(#[$doc])*
        #[inline]
        pub fn $name(buffer: &mut [u8] $(, $argument: $type)*) -> LimiterReply {
            // SAFETY: see the macro.
            unsafe { crate::$c(buffer.as_mut_ptr(), buffer.len() $(, $argument)*) }
        }
    )+};
}

on_buffers! {
    /// `limiter_line_try`: the line of a try.
    line_try = limiter_line_try(now: u64, key: u64, cost: u32);
    /// `limiter_line_peek`: the line of a peek.
    line_peek = limiter_line_peek(now: u64, key: u64, cost: u32);
    /// `limiter_line_reserve`: the line of a reservation.
    line_reserve = limiter_line_reserve(now: u64, key: u64, cost: u32, max_wait: u64);
    /// `limiter_line_refund`: the line of a refund.
    line_refund = limiter_line_refund(key: u64, cost: u32);
    /// `limiter_line_remove`: the line of a removal.
    line_remove = limiter_line_remove(key: u64);
}
