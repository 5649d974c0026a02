//! What a call answers, and who answered what.

use core::fmt;

use oracle::Answer;

/// A code and a number, as 01 has them, and the moment that 02 adds. The Rust has no moment: it is held against `answer` alone.
#[derive(Debug, Clone, Copy, PartialEq, Eq)]
pub struct Reply {
    pub answer: Answer,
    /// Now + the wait of a grant or a retry, else 0.
    pub moment: u64,
}

/// Who answered what, to be printed.
pub struct Said {
    who: &'static str,
    answer: Answer,
    moment: Option<u64>,
}

impl Said {
    pub const fn library(reply: Reply) -> Self {
        Self::with_moment("library", reply)
    }

    pub const fn rules(reply: Reply) -> Self {
        Self::with_moment("the rules", reply)
    }

    /// The Rust tells no moment.
    pub const fn rust(answer: Answer) -> Self {
        Self {
            who: "Rust",
            answer,
            moment: None,
        }
    }

    const fn with_moment(who: &'static str, reply: Reply) -> Self {
        Self {
            who,
            answer: reply.answer,
            moment: Some(reply.moment),
        }
    }
}

impl fmt::Display for Said {
    fn fmt(&self, f: &mut fmt::Formatter<'_>) -> fmt::Result {
        let Answer { code, number } = self.answer;
        write!(f, "{}: code {code} number {number}", self.who)?;
        match self.moment {
            Some(moment) => write!(f, " moment {moment}"),
            None => Ok(()),
        }
    }
}
