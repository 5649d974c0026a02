//! What is answered: a code, the number beside it, and the moment at which a grant or a retry is due.

use oracle::Answer;

use super::bucket::Wait;
use crate::reply::Reply;

/// A cost that no wait will meet.
pub const IMPOSSIBLE: Reply = untimed(2, 0);
/// No reservation; or the key is unknown.
pub const NONE: Reply = untimed(3, 0);

/// Accepted, with a count: tokens, or keys.
pub const fn counted(number: u64) -> Reply {
    untimed(0, number)
}

/// The tokens are the caller's, after this wait: 0 unless it is a reservation's. A peek's, and those of cost 0, are granted too.
pub const fn acquired(wait: Wait) -> Reply {
    timed(0, wait)
}

/// Not now: to be tried again after this wait.
pub const fn retry(wait: Wait) -> Reply {
    timed(1, wait)
}

/// Whether a key was known.
pub const fn known(known: bool) -> Reply {
    if known { counted(0) } else { NONE }
}

/// Refused by number, before any rule.
pub const fn refused(number: u8) -> Reply {
    untimed(10 + number, 0)
}

/// The number is the wait, and the moment when it is over.
const fn timed(code: u8, wait: Wait) -> Reply {
    let answer = Answer {
        code,
        number: wait.nanos,
    };
    Reply {
        answer,
        moment: wait.moment(),
    }
}

/// An answer that nobody has to wait for: its moment is 0.
const fn untimed(code: u8, number: u64) -> Reply {
    let answer = Answer { code, number };
    Reply { answer, moment: 0 }
}
