//! Our library, the Rust and the rules on words, side by side.

mod aside;
mod by_address;
mod convert;
mod difference;
mod shorten;
mod trace;
mod trio;

use oracle::refusals::{MOST_KEYS, MOST_SHARDS};
use oracle::{Answer, Limiter};

use crate::branches::{Hits, Origin};
use crate::call::Call;
use crate::given::Given;
use crate::lent::Lent;
use crate::library::{self, Beside};
use crate::reply::{Reply, Said};
use crate::rules;
use crate::rules::classes::{BUCKET_WORDS, MOST_CLASSES, table};
pub use convert::Conversions;
pub use difference::{Checked, Difference};
use difference::{differing, differing_records};
pub use trace::trace_head;
use trio::Replies;
pub use trio::Trio;

/// More words than any shape has (65,536 keys in 64 shards have 852,288), and some to lend too many.
const MOST_WORDS: usize = 900_000;

/// A call with the settings and the table as they are given to the library.
#[derive(Clone)]
pub struct Step {
    pub given: Given,
    pub call: Call,
}

/// How a trace starts: set up, by either call where there are no classes, and then perhaps loaded.
pub struct Start {
    pub given: Given,
    pub call: Call,
    pub loaded: Option<Vec<u64>>,
}

/// The memories that are lent to the library, and the count of branches.
pub struct Bench {
    lent: Lent,
    scratch: Lent,
    beside: Beside,
    pub hits: Hits,
    /// How many tries through a class the Rust made too, as its plain try.
    pub passed: u64,
    /// The conversions that were compared.
    pub conversions: Conversions,
}

impl Bench {
    pub fn new() -> Self {
        Self {
            lent: Lent::new(MOST_WORDS),
            scratch: Lent::new(MOST_WORDS),
            beside: Beside::new(),
            hits: Hits::new(),
            passed: 0,
            conversions: Conversions::default(),
        }
    }

    /// Sets a store up three times, on memory that was used before, and loads it.
    pub fn start(&mut self, start: &Start) -> Checked<Trio> {
        let given = &start.given;
        let (shape, classes) = (given.shape(), table(given).count());
        self.hits.origin = if start.loaded.is_some() {
            Origin::Loaded
        } else {
            Origin::Grown
        };
        let mut words = vec![0x0075_7365_6421; shape.words() + classes as usize * BUCKET_WORDS];
        self.lent.fill(&words);
        let step = Step {
            given: given.clone(),
            call: start.call,
        };
        compare_words(given, &step)?;
        let (limiter, rust) = Limiter::new(given.settings());
        let ruled = rules::answer(given, &mut words, &step.call, &mut self.hits);
        let ours = library::ask(given, self.lent.words(), &step.call, &mut self.beside);
        let mut trio = Trio::new(limiter, shape, classes, words);
        let rust = Some(rust);
        trio.compare(&mut self.lent, &step, Replies { ours, rust, ruled })?;
        if let Some(loaded) = &start.loaded {
            trio.words.copy_from_slice(loaded);
            trio.load_the_rust();
            self.lent.fill(loaded);
        }
        Ok(trio)
    }

    /// One call of all three. Where a class may decide it, the Rust is not asked, and gets the words that the rules leave.
    pub fn step(&mut self, trio: &mut Trio, step: &Step) -> Checked<()> {
        let Step { given, call } = step;
        let is_the_rusts = trio.is_the_rusts(given, call);
        if is_the_rusts && matches!(call, Call::Through { .. }) {
            self.passed += 1;
        }
        let rust = is_the_rusts.then(|| call.ask(&trio.limiter));
        let records = rules::debts::records(given, &trio.words, call);
        let ruled = rules::answer(given, &mut trio.words, call, &mut self.hits);
        let ours = library::ask(given, self.lent.words(), call, &mut self.beside);
        let replies = Replies { ours, rust, ruled };
        self.compare_records(step, replies, &records)?;
        if is_the_rusts {
            trio.compare_records(step, replies, &records)?;
        }
        if !is_the_rusts {
            trio.load_the_rust();
        }
        trio.compare(&mut self.lent, step, replies)
    }

    /// Holds the records that the library was lent against those that the rules leave. Only a list of debts has any.
    fn compare_records(&mut self, step: &Step, replies: Replies, records: &[u64]) -> Checked<()> {
        let its = self.beside.records();
        if its == records {
            return Ok(());
        }
        let sides = "the library and the rules";
        Err(differing_records(sides, step, replies.said(), its, records))
    }
}

/// Holds the words that the library asks for against those that 01 and 02 give; 0 for sizes that are refused, and for too many classes.
fn compare_words(given: &Given, step: &Step) -> Checked<()> {
    let (settings, classes) = (given.settings(), u64::from(given.raw.classes));
    let refused = settings.max_keys > MOST_KEYS || settings.shards > MOST_SHARDS;
    let ruled = if refused || classes > MOST_CLASSES {
        0
    } else {
        given.shape().words() as u64 + classes * BUCKET_WORDS as u64
    };
    let ours = library::words(&given.raw);
    if ours == ruled {
        return Ok(());
    }
    let asked = |number| Reply {
        answer: Answer { code: 0, number },
        moment: 0,
    };
    let answers = vec![Said::library(asked(ours)), Said::rules(asked(ruled))];
    let sides = "the words that the library asks for and 01's";
    Err(differing(sides, step, answers, &[], &[]))
}
