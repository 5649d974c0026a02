//! What a store answers.

use core::fmt;
use core::time::Duration;

use limiter_sys::{
    LIMITER_BAD_ADDRESS, LIMITER_BAD_AMOUNT, LIMITER_BAD_BUFFER, LIMITER_BAD_BURST,
    LIMITER_BAD_CHAIN, LIMITER_BAD_CLASS, LIMITER_BAD_MAX_WAIT, LIMITER_BAD_MEMORY,
    LIMITER_BAD_MOMENT, LIMITER_BAD_PERIOD, LIMITER_BAD_RECORDS, LIMITER_BAD_SHARD,
    LIMITER_BAD_SIZES, LIMITER_DONE, LIMITER_GROUP_ADDRESS, LIMITER_IMPOSSIBLE, LIMITER_NONE,
    LIMITER_RETRY, LIMITER_TWINS, LIMITER_USED_PAST, LimiterIdentity, LimiterReply,
};

use crate::Key;

/// The answer to a try or a peek.
///
/// Match on it with `..` and a last arm: a later version may tell more of an outcome, or have another one.
#[non_exhaustive]
#[derive(Debug, Clone, Copy, PartialEq, Eq, Hash)]
pub enum Decision {
    /// The tokens are taken; to a peek, they are there.
    #[non_exhaustive]
    Acquired {
        /// The moment from which on they may be used: that of the call.
        moment: Duration,
    },
    /// Not now.
    #[non_exhaustive]
    Retry {
        /// How long to wait before trying again.
        after: Duration,
        /// The moment at which to try again: that of the call, and the wait.
        moment: Duration,
    },
    /// Never: the cost is over the burst, or over that of a class on the chain, or the limiter is closed.
    Impossible,
}

impl Decision {
    /// Whether the tokens are taken, or there.
    #[must_use]
    pub const fn is_acquired(self) -> bool {
        matches!(self, Self::Acquired { .. })
    }

    /// Whether no wait helps.
    #[must_use]
    pub const fn is_impossible(self) -> bool {
        matches!(self, Self::Impossible)
    }

    /// How long to wait before trying again, if that helps.
    #[must_use]
    pub const fn retry_after(self) -> Option<Duration> {
        match self {
            Self::Retry { after, .. } => Some(after),
            Self::Acquired { .. } | Self::Impossible => None,
        }
    }

    /// The moment from which on the tokens may be used, or at which to try again; none if no wait helps. It is a time since the same start as the
    /// moment that the call was given. It can be after 2^62 ns, the last moment at which a call is taken.
    #[must_use]
    pub const fn moment(self) -> Option<Duration> {
        match self {
            Self::Acquired { moment, .. } | Self::Retry { moment, .. } => Some(moment),
            Self::Impossible => None,
        }
    }
}

/// Tokens that are taken, and may be used after a wait.
#[non_exhaustive]
#[derive(Debug, Clone, Copy, PartialEq, Eq, Hash)]
pub struct Reservation {
    /// The wait after which they may be used.
    pub wait: Duration,
    /// The moment from which on they may be used: that of the call, and the wait.
    pub moment: Duration,
}

/// Why a call was refused. A refused call changes nothing.
#[non_exhaustive]
#[derive(Debug, Clone, Copy, PartialEq, Eq, Hash)]
pub enum Refusal {
    /// The amount is not 1 to 65,535; of the settings, or of a class.
    Amount,
    /// The period is not 1 to 2^46 ns; of the settings, or of a class.
    Period,
    /// The burst is not 1 to 65,535; of the settings, or of a class.
    Burst,
    /// More than 65,536 keys or 64 shards.
    Sizes,
    /// Another number of words than [`Settings::words`](crate::Settings::words), or a count in them that is more than a shard holds.
    Memory,
    /// The moment is after 2^62 ns.
    Moment,
    /// The longest wait is over 2^46 ns.
    MaxWait,
    /// The address is not six bytes. No [`HardwareAddress`](crate::HardwareAddress) is refused so.
    AddressLength,
    /// The address is that of a group, and not of a modem ([`HardwareAddress::is_group`](crate::HardwareAddress::is_group)).
    GroupAddress,
    /// The buffer is shorter than the desk line.
    Buffer,
    /// More than 64 classes, or a class or parent that is not in the table.
    Class,
    /// A chain of parents does not end within 8 classes, the first included.
    Chain,
    /// The store has no shard of this number.
    Shard,
    /// Fewer records are lent than there are debts to write.
    Records,
    /// Of a conversion: the source has two slots of one hash and key, or two debts of one hash, in one shard.
    Twins,
    /// Of a conversion: among the slots or the debts of the source a word past a count is not 0.
    UsedPast,
    /// The library answered as this crate does not know: the two are of different versions. Here the call may have done something.
    Unknown {
        /// The code that the library gave.
        code: u64,
    },
}

impl Refusal {
    /// Those that have a number.
    const NUMBERED: [Self; 16] = [
        Self::Amount,
        Self::Period,
        Self::Burst,
        Self::Sizes,
        Self::Memory,
        Self::Moment,
        Self::MaxWait,
        Self::AddressLength,
        Self::GroupAddress,
        Self::Buffer,
        Self::Class,
        Self::Chain,
        Self::Shard,
        Self::Records,
        Self::Twins,
        Self::UsedPast,
    ];

    /// The code that the library answered with: 10 and the number of the refusal.
    #[must_use]
    pub const fn code(self) -> u64 {
        match self {
            Self::Amount => LIMITER_BAD_AMOUNT,
            Self::Period => LIMITER_BAD_PERIOD,
            Self::Burst => LIMITER_BAD_BURST,
            Self::Sizes => LIMITER_BAD_SIZES,
            Self::Memory => LIMITER_BAD_MEMORY,
            Self::Moment => LIMITER_BAD_MOMENT,
            Self::MaxWait => LIMITER_BAD_MAX_WAIT,
            Self::AddressLength => LIMITER_BAD_ADDRESS,
            Self::GroupAddress => LIMITER_GROUP_ADDRESS,
            Self::Buffer => LIMITER_BAD_BUFFER,
            Self::Class => LIMITER_BAD_CLASS,
            Self::Chain => LIMITER_BAD_CHAIN,
            Self::Shard => LIMITER_BAD_SHARD,
            Self::Records => LIMITER_BAD_RECORDS,
            Self::Twins => LIMITER_TWINS,
            Self::UsedPast => LIMITER_USED_PAST,
            Self::Unknown { code } => code,
        }
    }

    /// What a code says that is none of those which its call is known to give.
    #[cold]
    fn of(code: u64) -> Self {
        Self::NUMBERED
            .into_iter()
            .find(|refusal| refusal.code() == code)
            .unwrap_or(Self::Unknown { code })
    }
}

impl fmt::Display for Refusal {
    fn fmt(&self, f: &mut fmt::Formatter<'_>) -> fmt::Result {
        f.write_str(match self {
            Self::Amount => "the amount is not 1 to 65,535",
            Self::Period => "the period is not 1 to 2^46 ns",
            Self::Burst => "the burst is not 1 to 65,535",
            Self::Sizes => "more than 65,536 keys, 4,096 in a conversion, or 64 shards",
            Self::Memory => "the words are not those of a store with these settings",
            Self::Moment => "the moment is after 2^62 ns",
            Self::MaxWait => "the longest wait is over 2^46 ns",
            Self::AddressLength => "the address is not six bytes",
            Self::GroupAddress => "the address is that of a group",
            Self::Buffer => "the buffer is shorter than the line",
            Self::Class => "more than 64 classes, or a class that is not in the table",
            Self::Chain => "a chain of parents that does not end within 8 classes",
            Self::Shard => "the store has no shard of this number",
            Self::Records => "fewer records than there are debts to write",
            Self::Twins => "two slots of one hash and key, or two debts of one hash",
            Self::UsedPast => "a word past a count is not 0",
            Self::Unknown { code } => {
                return write!(f, "the library answered with the unknown code {code}");
            }
        })
    }
}

impl core::error::Error for Refusal {}

/// A try or a peek.
pub(crate) fn decision(reply: LimiterReply) -> Result<Decision, Refusal> {
    match reply.code {
        LIMITER_DONE => Ok(Decision::Acquired {
            moment: Duration::from_nanos(reply.moment),
        }),
        LIMITER_RETRY => Ok(Decision::Retry {
            after: Duration::from_nanos(reply.number),
            moment: Duration::from_nanos(reply.moment),
        }),
        LIMITER_IMPOSSIBLE => Ok(Decision::Impossible),
        _ => Err(Refusal::of(reply.code)),
    }
}

/// A reservation, if there is one.
pub(crate) fn reservation(reply: LimiterReply) -> Result<Option<Reservation>, Refusal> {
    match reply.code {
        LIMITER_DONE => Ok(Some(Reservation {
            wait: Duration::from_nanos(reply.number),
            moment: Duration::from_nanos(reply.moment),
        })),
        LIMITER_NONE => Ok(None),
        _ => Err(Refusal::of(reply.code)),
    }
}

/// Whether a key was known.
pub(crate) fn known(reply: LimiterReply) -> Result<bool, Refusal> {
    match reply.code {
        LIMITER_DONE => Ok(true),
        LIMITER_NONE => Ok(false),
        _ => Err(Refusal::of(reply.code)),
    }
}

/// Tokens, tries or keys.
pub(crate) fn count(reply: LimiterReply) -> Result<u64, Refusal> {
    match reply.code {
        LIMITER_DONE => Ok(reply.number),
        _ => Err(Refusal::of(reply.code)),
    }
}

/// The bytes of a line, or the records of a list.
pub(crate) fn size(reply: LimiterReply) -> Result<usize, Refusal> {
    let size = count(reply)?;
    usize::try_from(size).map_err(|_| Refusal::of(reply.code))
}

/// The key of a modem.
pub(crate) fn key(identity: LimiterIdentity) -> Result<Key, Refusal> {
    match identity.code {
        LIMITER_DONE => Ok(Key::new(identity.hash, identity.key)),
        code => Err(Refusal::of(code)),
    }
}

/// A call that says nothing but that it is done.
pub(crate) fn done(reply: LimiterReply) -> Result<(), Refusal> {
    count(reply).map(|_| ())
}

#[cfg(test)]
mod tests {
    use super::*;

    const fn reply(code: u64) -> LimiterReply {
        LimiterReply {
            code,
            number: 9,
            moment: u64::MAX,
        }
    }

    #[test]
    fn the_moment_is_that_of_the_reply() {
        let (wait, moment) = (Duration::from_nanos(9), Duration::from_nanos(u64::MAX));
        let decisions = [
            Decision::Acquired { moment },
            Decision::Retry {
                after: wait,
                moment,
            },
            Decision::Impossible,
        ];
        for (code, told) in (0..).zip(decisions) {
            assert_eq!(decision(reply(code)), Ok(told));
            assert_eq!(
                told.moment(),
                (code != LIMITER_IMPOSSIBLE).then_some(moment)
            );
        }
        let reserved = Reservation { wait, moment };
        assert_eq!(reservation(reply(LIMITER_DONE)), Ok(Some(reserved)));
        assert_eq!(reservation(reply(LIMITER_NONE)), Ok(None));
    }

    #[test]
    fn a_code_that_is_not_known_is_an_error() {
        for code in [3, 4, 9, 10, 18, 99, u64::MAX] {
            let unknown = Refusal::Unknown { code };
            assert_eq!(decision(reply(code)), Err(unknown));
            assert_eq!(done(reply(code)), Err(unknown));
            assert_eq!(unknown.code(), code);
        }
        // 1 and 2 are codes of a try alone.
        for code in [1, 2, 4] {
            let unknown = Refusal::Unknown { code };
            assert_eq!(reservation(reply(code)), Err(unknown));
            assert_eq!(known(reply(code)), Err(unknown));
            assert_eq!(count(reply(code)), Err(unknown));
        }
    }

    #[test]
    fn a_refusal_has_the_code_that_it_was_told_by() {
        for (code, refusal) in (11..=17).chain(21..=29).zip(Refusal::NUMBERED) {
            assert_eq!(refusal.code(), code);
            assert_eq!(known(reply(code)), Err(refusal));
        }
    }
}
