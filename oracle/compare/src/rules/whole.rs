//! The calls on the whole memory: set-up, clear, length.

use oracle::{Shape, layout};

use super::decision::counted;
use crate::branches::{Branch, Hits};
use crate::call::Call;
use crate::given::Given;
use crate::reply::Reply;

/// A call without a key.
pub fn answer(given: &Given, words: &mut [u64], call: &Call, hits: &mut Hits) -> Reply {
    let closed = given.settings().rate.is_none();
    match call {
        Call::Length => len(words, closed, hits),
        Call::Clear | Call::ClassClear => clear(given.shape(), words, closed, hits),
        _ => set_up(given.shape(), words, hits),
    }
}

/// Set-up: every word becomes 0, whatever it was: so the buckets of classes are full.
fn set_up(shape: Shape, words: &mut [u64], hits: &mut Hits) -> Reply {
    let classes = words.len() > shape.words();
    hits.either(classes, (Branch::SetUpClasses, Branch::SetUp));
    words.fill(0);
    counted(0)
}

/// Clear: the same.
fn clear(shape: Shape, words: &mut [u64], closed: bool, hits: &mut Hits) -> Reply {
    let empty = words.iter().all(|&word| word == 0);
    hits.either(empty, (Branch::ClearEmpty, Branch::ClearHeld));
    if words[shape.words()..].iter().any(|&word| word != 0) {
        hits.hit(Branch::ClearClasses);
    }
    if closed {
        hits.hit(Branch::ClosedClear);
    }
    words.fill(0);
    counted(0)
}

/// Length: the total. No shard is looked at.
fn len(words: &[u64], closed: bool, hits: &mut Hits) -> Reply {
    let length = words[layout::TOTAL];
    hits.either(length == 0, (Branch::LengthNone, Branch::LengthSome));
    if closed {
        hits.hit(Branch::ClosedLength);
    }
    counted(length)
}
