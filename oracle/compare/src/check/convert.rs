//! The conversions of a store's words, against the second account: as they are, and damaged.

use limiter_sys::converter as library;

use super::difference::{Checked, differing};
use super::{Bench, Step};
use crate::library::RawSettings;
use crate::random::Random;
use crate::rules::converter::{self as account, MEMORY, Shape, TWINS, USED_PAST};

/// Stores of more words than this are not converted: the pairs of their items are many.
const MOST_CONVERTED: usize = 20_000;
/// So many copies of the words are damaged in one word each.
const DAMAGED: u64 = 4;

/// How often each outcome was compared, forth and back: done, and refused as 5, 18 and 19.
#[derive(Default)]
pub struct Conversions([[u64; 4]; 2]);

impl Conversions {
    /// Those that never happened.
    pub fn report(&self) -> Vec<String> {
        let names = ["done", "5", "18", "19"];
        let ways = ["forth", "back"];
        println!(
            "conversions (done, 5, 18, 19): forth {:?}, back {:?}",
            self.0[0], self.0[1]
        );
        let all = ways.iter().zip(&self.0);
        all.flat_map(|(way, times)| {
            let missing = names.iter().zip(times).filter(|&(_, &times)| times == 0);
            missing.map(move |(name, _)| format!("a conversion {way}: {name}"))
        })
        .collect()
    }
}

impl Bench {
    /// Converts the words of a store without classes back, and what that gives forth again; then words with one word damaged, both ways.
    pub fn convert(&mut self, step: &Step, words: &[u64], random: &mut Random) -> Checked<()> {
        let given = step.given.shape();
        let shape = Shape {
            shards: given.shards as usize,
            cap: given.room(),
        };
        if words.len() != shape.new_words() || words.len() > MOST_CONVERTED {
            return Ok(());
        }
        let raw = step.given.raw;
        let damaged = |random: &mut Random, words: &[u64]| {
            let mut words = words.to_vec();
            let at = random.below(words.len() as u64) as usize;
            words[at] = if random.chance(50) {
                random.pick(&words)
            } else {
                random.any_size(u64::MAX)
            };
            words
        };
        let old = self.converted_back(step, &raw, shape, words)?;
        for _ in 0..DAMAGED {
            let words = damaged(random, words);
            self.converted_back(step, &raw, shape, &words)?;
        }
        let Some(old) = old else { return Ok(()) };
        let new = self.converted_forth(step, &raw, shape, &old)?;
        if let Some(new) = new {
            let again = self.converted_back(step, &raw, shape, &new)?;
            if again.as_ref() != Some(&old) {
                let again = again.unwrap_or_default();
                let sides = "the words and those that came back";
                return Err(differing(sides, step, Vec::new(), &old, &again));
            }
        }
        for _ in 0..DAMAGED {
            let words = damaged(random, &old);
            self.converted_forth(step, &raw, shape, &words)?;
        }
        Ok(())
    }

    fn converted_forth(
        &mut self,
        step: &Step,
        raw: &RawSettings,
        shape: Shape,
        source: &[u64],
    ) -> Checked<Option<Vec<u64>>> {
        let expected = account::forth(shape, source);
        self.scratch.fill(&vec![USED; shape.new_words()]);
        let reply = library::forth(*raw, source, self.scratch.words());
        self.hold(0, step, reply.code, expected)
    }

    fn converted_back(
        &mut self,
        step: &Step,
        raw: &RawSettings,
        shape: Shape,
        source: &[u64],
    ) -> Checked<Option<Vec<u64>>> {
        let expected = account::back(shape, source);
        self.scratch.fill(&vec![USED; shape.old_words()]);
        let reply = library::back(*raw, source, self.scratch.words());
        self.hold(1, step, reply.code, expected)
    }

    /// Holds the code and all words of the target against the account. A refusal leaves the target as it was.
    fn hold(
        &mut self,
        way: usize,
        step: &Step,
        code: u64,
        expected: Result<Vec<u64>, u64>,
    ) -> Checked<Option<Vec<u64>>> {
        let left = self.scratch.words().to_vec();
        let (number, words) = match &expected {
            Ok(words) => (0, words.clone()),
            Err(number) => (10 + number, vec![USED; left.len()]),
        };
        if code != number || left != words || !self.scratch.guarded() {
            let with = |code: u64, words: &[u64]| [&[code], words].concat();
            let sides = "the library's conversion and the rules' (first the code)";
            let (ours, ruled) = (with(code, &left), with(number, &words));
            return Err(differing(sides, step, Vec::new(), &ours, &ruled));
        }
        let place = match expected {
            Ok(_) => 0,
            Err(MEMORY) => 1,
            Err(TWINS) => 2,
            Err(USED_PAST) => 3,
            Err(_) => return Ok(None),
        };
        self.conversions.0[way][place] += 1;
        Ok(expected.ok())
    }
}

/// What stands in a target before it is written.
const USED: u64 = 0x0075_7365_6421;
