//! One call on words of any content.

use oracle::layout::{self, slot};
use oracle::refusals::Memory;
use oracle::{Answer, Limiter, Shape};

use super::difference::{Checked, differing, differing_records};
use super::trio::Replies;
use super::{Bench, Step, compare_words};
use crate::branches::Origin;
use crate::call::Call;
use crate::generate::Aside;
use crate::reply::{Reply, Said};
use crate::rules::classes::counted;
use crate::{library, records, rules};

/// Codes over this one are refusals by number.
const REFUSED: u8 = 10;

impl Bench {
    /// One call on words of any content. The rules decide; where the Rust can hold the words, it is asked too. The words that the call leaves.
    pub fn aside(&mut self, aside: &Aside) -> Checked<Vec<u64>> {
        self.hits.origin = Origin::Any;
        let Aside { given, words, call } = aside;
        let step = Step {
            given: given.clone(),
            call: *call,
        };
        compare_words(given, &step)?;
        let mut left = words.clone();
        let records = rules::debts::records(given, words, call);
        let ruled = rules::answer(given, &mut left, call, &mut self.hits);
        self.scratch.fill(words);
        let ours = library::ask(given, self.scratch.words(), call, &mut self.beside);
        let replies = Replies {
            ours,
            rust: None,
            ruled,
        };
        self.compare_records(&step, replies, &records)?;
        let answers = replies.said();
        if ruled.answer.code > REFUSED && left != *words {
            let sides = "the rules and a refused call's words";
            return Err(differing(sides, &step, answers, &left, words));
        }
        if ruled.answer.code > REFUSED && records != records::before(call) {
            let sides = "the rules and a refused call's records";
            let before = records::before(call);
            return Err(differing_records(sides, &step, answers, &records, &before));
        }
        let lent = self.scratch.words();
        if ours != ruled || lent != left || !self.scratch.guarded() {
            let (sides, lent) = ("the library and the rules", self.scratch.words());
            return Err(differing(sides, &step, answers, lent, &left));
        }
        if rules::is_the_rusts(given, words, call) {
            compare_the_rust(aside, ruled, left.clone(), &records)?;
        }
        Ok(left)
    }
}

/// Holds the Rust against the rules, where it can hold the words: but for the moment and the classes, which it lacks.
fn compare_the_rust(
    aside: &Aside,
    ruled: Reply,
    mut words: Vec<u64>,
    records: &[u64],
) -> Checked<()> {
    let Some(OfTheRust {
        answer: rust,
        words: its_words,
        records: its_records,
    }) = the_rust_on(aside)
    else {
        return Ok(());
    };
    let differ = its_words.is_some_and(|its_words| {
        let shape = aside.given.shape();
        words.truncate(shape.words());
        normalise_marks(shape, &mut words);
        its_words != words
    });
    if rust == ruled.answer && !differ && its_records == records {
        return Ok(());
    }
    let step = Step {
        given: aside.given.clone(),
        call: aside.call,
    };
    let answers = vec![Said::rust(rust), Said::rules(ruled)];
    let sides = "the Rust and the rules";
    Err(differing_records(
        sides,
        &step,
        answers,
        &its_records,
        records,
    ))
}

/// What the Rust makes of a call: its answer, its words if it can hold any, and the records of a list.
struct OfTheRust {
    answer: Answer,
    words: Option<Vec<u64>>,
    records: Vec<u64>,
}

/// The Rust on an aside's words. None if the Rust cannot hold the words. It is lent those of the shards alone.
fn the_rust_on(aside: &Aside) -> Option<OfTheRust> {
    let Aside { given, words, call } = aside;
    let classes = counted(given, call);
    let lent = rules::Shards { words, classes }.length();
    let (limiter, accepted) = Limiter::set_up(given.settings(), lent);
    if matches!(call, Call::SetUp | Call::ClassSetUp) {
        return Some(OfTheRust {
            answer: accepted,
            words: (accepted.code == 0).then(|| limiter.words()),
            records: records::before(call),
        });
    }
    let held = accepted.code == 0;
    if held {
        limiter.load(&words[..given.shape().words()]).ok()?;
    }
    Some(OfTheRust {
        answer: call.ask(&limiter),
        words: held.then(|| limiter.words()),
        records: records::of_the_rust(call, &limiter),
    })
}

/// Makes every mark of held slots 0 or 1, as the Rust shows it.
fn normalise_marks(shape: Shape, words: &mut [u64]) {
    for shard in 0..shape.shards {
        let row = &mut words[shape.shard(shard)];
        for place in 0..shape.room() {
            let mark = &mut row[layout::SLOTS.item(place)][slot::MARK];
            *mark = u64::from(*mark != 0);
        }
    }
}
