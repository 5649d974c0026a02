//! The desk program's lines.

use core::fmt;
use core::time::Duration;

use limiter_sys::{LIMITER_LONGEST_LINE, slices};

use crate::answer::{self, Refusal};
use crate::settings::nanos;

/// A call as the desk program reads it.
///
/// Displayed it is the program's line: the shortest that is read as this call, without the LF. The library's proved writer writes it, with moments and waits
/// in nanoseconds. A time past 64 bits of nanoseconds is written as the largest number of 64 bits: the desk refuses it as a store does.
///
/// The desk hashes the key as [`Key::fnv1a`](crate::Key::fnv1a) does. It answers as a store of several shards only where that store's calls have this hash.
///
/// ```
/// use core::time::Duration;
/// use limiter::DeskLine;
///
/// let now = Duration::from_millis(500);
/// let line = DeskLine::Try { now, key: 7, cost: 3 };
/// assert_eq!(line.to_string(), "a 500000000 7 3");
/// ```
#[non_exhaustive]
#[derive(Debug, Clone, Copy, PartialEq, Eq, PartialOrd, Ord, Hash)]
#[allow(missing_docs, reason = "the fields are the arguments of the call")]
pub enum DeskLine {
    /// `a`: a try.
    Try { now: Duration, key: u64, cost: u32 },
    /// `p`: a peek.
    Peek { now: Duration, key: u64, cost: u32 },
    /// `r`: a reservation.
    Reserve {
        now: Duration,
        key: u64,
        cost: u32,
        max_wait: Duration,
    },
    /// `f`: a refund.
    Refund { key: u64, cost: u32 },
    /// `d`: a removal.
    Remove { key: u64 },
}

impl DeskLine {
    /// The bytes of the longest line, LF counted.
    pub const LONGEST: usize = LIMITER_LONGEST_LINE;

    /// Writes the line, LF at the end, at the start of a buffer, and returns the number of its bytes, LF counted. The bytes past them stay.
    ///
    /// # Errors
    ///
    /// [`Refusal::Buffer`]: the buffer is shorter than the line. No byte of it changes.
    pub fn write(self, buffer: &mut [u8]) -> Result<usize, Refusal> {
        answer::size(match self {
            Self::Try { now, key, cost } => slices::line_try(buffer, nanos(now), key, cost),
            Self::Peek { now, key, cost } => slices::line_peek(buffer, nanos(now), key, cost),
            Self::Reserve {
                now,
                key,
                cost,
                max_wait,
            } => slices::line_reserve(buffer, nanos(now), key, cost, nanos(max_wait)),
            Self::Refund { key, cost } => slices::line_refund(buffer, key, cost),
            Self::Remove { key } => slices::line_remove(buffer, key),
        })
    }
}

impl fmt::Display for DeskLine {
    fn fmt(&self, f: &mut fmt::Formatter<'_>) -> fmt::Result {
        let mut buffer = [0; Self::LONGEST];
        let size = self.write(&mut buffer).map_err(|_| fmt::Error)?;
        let line = buffer[..size].strip_suffix(b"\n").ok_or(fmt::Error)?;
        f.pad(core::str::from_utf8(line).map_err(|_| fmt::Error)?)
    }
}
