//! The calls that take a table of classes: as C has them, on words, and on slices, safe with any table, arguments and words.
//!
//! A table is words, six a class, in the order of [`LimiterClass`]. Words past a multiple of six are not read. These calls take the number of classes from
//! the table, and do not read that of the settings.

use crate::{LimiterClass, LimiterReply, LimiterSettings};

// As the calls on keys, and `table` and `table_len` are words that may be read for the length of the call. Where `table_len` is 0 `table` may be null.
#[allow(
    missing_docs,
    reason = "bindings/c/limiter.h has a comment on each; there the table is counted in classes"
)]
unsafe extern "C" {
    pub fn limiter_table_set_up(
        settings: LimiterSettings,
        table: *const u64,
        table_len: usize,
        words: *mut u64,
        len: usize,
    ) -> LimiterReply;
    pub fn limiter_table_clear(
        settings: LimiterSettings,
        table: *const u64,
        table_len: usize,
        words: *mut u64,
        len: usize,
    ) -> LimiterReply;
    pub fn limiter_table_try(
        settings: LimiterSettings,
        table: *const u64,
        table_len: usize,
        words: *mut u64,
        len: usize,
        now: u64,
        hash: u64,
        key: u64,
        class: u64,
        cost: u32,
    ) -> LimiterReply;
}

/// The words of a table, six a class.
pub const CLASS_WORDS: usize = size_of::<LimiterClass>() / size_of::<u64>();

impl LimiterClass {
    /// Its words, in the order of the table.
    #[must_use]
    pub const fn words(self) -> [u64; CLASS_WORDS] {
        [
            self.amount,
            self.period,
            self.has_burst,
            self.burst,
            self.has_parent,
            self.parent,
        ]
    }
}

/// A safe function for each C function that is lent a table and words. The pointers and lengths are those of slices that are borrowed for the call, the words
/// for writing; it reads and writes nothing else.
macro_rules! with_table {
    ($($(#[$doc:meta])* $name:ident = $c:ident($($argument:ident: $type:ty),*);)+) => {$(
        $(#[$doc])*
        #[allow(clippy::too_many_arguments, reason = "those of the C function")]
        #[inline]
        pub fn $name(settings: LimiterSettings, table: &[u64], words: &mut [u64] $(, $argument: $type)*) -> LimiterReply {
            // SAFETY: see the macro.
            unsafe { $c(settings, table.as_ptr(), table.len(), words.as_mut_ptr(), words.len() $(, $argument)*) }
        }
    )+};
}

with_table! {
    /// `limiter_table_set_up`: makes the words an empty store with these classes, whose buckets are full.
    set_up = limiter_table_set_up();
    /// `limiter_table_clear`: forgets all keys and debts, and fills the buckets of the classes.
    clear = limiter_table_clear();
    /// `limiter_table_try`: takes tokens from the key's bucket and from every bucket on the chain of a class, if they are there now.
    try_acquire = limiter_table_try(now: u64, hash: u64, key: u64, class: u64, cost: u32);
}
