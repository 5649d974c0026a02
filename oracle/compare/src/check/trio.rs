//! A store three times.

use oracle::{Answer, Limiter, Shape, layout};

use super::Step;
use super::difference::{Checked, differing, differing_records};
use crate::call::Call;
use crate::given::Given;
use crate::lent::Lent;
use crate::records;
use crate::reply::{Reply, Said};
use crate::rules;

/// Memories up to this many words are compared with the Rust as a whole at every call.
const SMALL_MEMORY: usize = 1_200;
/// In memories of more words than this no word is looked at but once in so many calls.
const LARGE_MEMORY: usize = 60_000;
/// In larger ones than small the Rust's other shards are looked at once in so many calls.
const ALL_SHARDS_EVERY: u32 = 128;

/// What the three answer to one call.
#[derive(Clone, Copy)]
pub(super) struct Replies {
    pub ours: Reply,
    /// It has no moment. None where the Rust, which has no classes, is not asked.
    pub rust: Option<Answer>,
    pub ruled: Reply,
}

impl Replies {
    pub(super) fn said(self) -> Vec<Said> {
        let rust = self.rust.map(Said::rust);
        [Said::library(self.ours), Said::rules(self.ruled)]
            .into_iter()
            .chain(rust)
            .collect()
    }
}

/// A store three times: in the Rust, in the library's lent words, and in words that the rules work on. The Rust has no classes.
pub struct Trio {
    pub(super) limiter: Limiter,
    shape: Shape,
    classes: u64,
    pub(super) words: Vec<u64>,
    calls: u32,
}

impl Trio {
    /// Set up in the Rust and by the rules.
    pub(super) const fn new(limiter: Limiter, shape: Shape, classes: u64, words: Vec<u64>) -> Self {
        Self {
            limiter,
            shape,
            classes,
            words,
            calls: 0,
        }
    }

    pub fn words(&self) -> &[u64] {
        &self.words
    }

    /// The words of the shards.
    fn shards(&self) -> &[u64] {
        &self.words[..self.shape.words()]
    }

    /// Whether the Rust answers a call as the rules do. It does not notice that a call leaves out the classes.
    pub(super) fn is_the_rusts(&self, given: &Given, call: &Call) -> bool {
        rules::classes::counted(given, call) == self.classes
            && rules::is_the_rusts(given, &self.words, call)
    }

    /// Gives the Rust the words of the shards as they are.
    pub(super) fn load_the_rust(&self) {
        self.limiter
            .load(self.shards())
            .expect("contents that the Rust can hold");
    }

    /// Holds the three answers together, and the words: the library's as a whole, the Rust's of the touched shard, or as a whole. The moment, which the
    /// Rust lacks, is held against the rules' alone.
    pub(super) fn compare(
        &mut self,
        lent: &mut Lent,
        step: &Step,
        replies: Replies,
    ) -> Checked<()> {
        self.calls += 1;
        let turn = self.calls.is_multiple_of(ALL_SHARDS_EVERY);
        let words = self.shape.words();
        let looked_at = turn || words <= LARGE_MEMORY;
        self.compare_replies(lent, step, replies, looked_at)?;
        self.compare_total(step)?;
        match step.call.key() {
            _ if !looked_at => Ok(()),
            Some(key) if words > SMALL_MEMORY && !turn => {
                self.compare_shard(step, self.shape.shard_of(key.hash))
            }
            Some(_) | None => self.compare_all(step),
        }
    }

    /// The code and the number of all three; all three numbers, and all words if they are looked at, of the library and the rules.
    fn compare_replies(
        &self,
        lent: &mut Lent,
        step: &Step,
        replies: Replies,
        looked_at: bool,
    ) -> Checked<()> {
        let Replies { ours, rust, ruled } = replies;
        let differ = |sides, ones: &[u64], others: &[u64]| {
            Err(differing(sides, step, replies.said(), ones, others))
        };
        let same = !looked_at || lent.words() == self.words;
        if ours != ruled || !same || !lent.guarded() {
            return differ("the library and the rules", lent.words(), &self.words);
        }
        if rust.is_some_and(|rust| ruled.answer != rust) {
            let its = self.limiter.words();
            return differ("the rules and the Rust", self.shards(), &its);
        }
        Ok(())
    }

    /// The debts of the Rust's ledger, filtered, against the records that the rules leave.
    pub(super) fn compare_records(
        &self,
        step: &Step,
        replies: Replies,
        ruled: &[u64],
    ) -> Checked<()> {
        let its = records::of_the_rust(&step.call, &self.limiter);
        if its == ruled {
            return Ok(());
        }
        let sides = "the rules and the Rust";
        Err(differing_records(sides, step, replies.said(), ruled, &its))
    }

    /// How many slots the Rust has, by its own count, against the rules' total.
    fn compare_total(&self, step: &Step) -> Checked<()> {
        let (ruled, its) = (self.words[layout::TOTAL], self.limiter.total());
        if its == ruled {
            return Ok(());
        }
        let sides = "the rules and the Rust";
        Err(differing(sides, step, Vec::new(), &[ruled], &[its]))
    }

    /// The Rust's words of one shard against the rules'.
    fn compare_shard(&self, step: &Step, shard: u64) -> Checked<()> {
        let ruled = &self.words[self.shape.shard(shard)];
        let its = self
            .limiter
            .shard_words(shard as usize)
            .expect("there is such a shard");
        if its == ruled {
            return Ok(());
        }
        Err(differing(
            "the rules and the Rust",
            step,
            Vec::new(),
            ruled,
            &its,
        ))
    }

    /// The Rust's words of all shards against the rules'.
    pub fn compare_all(&self, step: &Step) -> Checked<()> {
        (0..self.shape.shards).try_for_each(|shard| self.compare_shard(step, shard))
    }
}
