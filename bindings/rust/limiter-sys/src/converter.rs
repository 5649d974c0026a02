//! The conversions between the first layout of the words and the present one: as C has them, and on slices, safe with any settings and words.
//!
//! They do not read the number of classes of the settings: both layouts are without classes.

use crate::{LimiterReply, LimiterSettings};

// What the two that are lent words ask of a caller: `source` and `source_len` are words that it may read, and `target` and `target_len` words that it may
// write, for the length of the call; the two do not overlap. Where a length is 0 its pointer may be null.
#[allow(missing_docs, reason = "bindings/c/limiter.h has a comment on each")]
unsafe extern "C" {
    pub fn limiter_convert_forth(
        settings: LimiterSettings,
        source: *const u64,
        source_len: usize,
        target: *mut u64,
        target_len: usize,
    ) -> LimiterReply;
    pub fn limiter_convert_back(
        settings: LimiterSettings,
        source: *const u64,
        source_len: usize,
        target: *mut u64,
        target_len: usize,
    ) -> LimiterReply;
    pub safe fn limiter_words_01(settings: LimiterSettings) -> u64;
}

/// `limiter_convert_forth`: from the first layout to the present one.
#[inline]
pub fn forth(settings: LimiterSettings, source: &[u64], target: &mut [u64]) -> LimiterReply {
    // SAFETY: the pointers and lengths are those of slices that are borrowed for the call, the target for writing; it reads and writes nothing else.
    unsafe {
        limiter_convert_forth(
            settings,
            source.as_ptr(),
            source.len(),
            target.as_mut_ptr(),
            target.len(),
        )
    }
}

/// `limiter_convert_back`: from the present layout to the first one.
#[inline]
pub fn back(settings: LimiterSettings, source: &[u64], target: &mut [u64]) -> LimiterReply {
    // SAFETY: as above.
    unsafe {
        limiter_convert_back(
            settings,
            source.as_ptr(),
            source.len(),
            target.as_mut_ptr(),
            target.len(),
        )
    }
}
