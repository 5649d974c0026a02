//! How often each branch was taken.

use super::list::{BRANCHES, Branch, is_dead, note};
use super::reasons::{REASONS, reason, reason_applies, table_reason, wrongs};
use crate::call::{Call, NAMES};
use crate::given::Given;
use crate::rules::classes::Refusal;

/// Where the words of a call come from.
#[derive(Debug, Clone, Copy, PartialEq, Eq)]
pub enum Origin {
    /// Grown from set-up by calls under one settings record.
    Grown,
    /// Loaded: contents that the Rust can hold.
    Loaded,
    /// Any words, settings and arguments.
    Any,
}

/// How often each branch was taken, by origin, and each refusal given.
pub struct Hits {
    pub origin: Origin,
    taken: Vec<[u64; 3]>,
    refused: [[u64; REASONS.len()]; NAMES.len()],
    calls: [[u64; NAMES.len()]; 3],
    several_wrong: u64,
}

impl Hits {
    pub fn new() -> Self {
        Self {
            origin: Origin::Grown,
            taken: vec![[0; 3]; BRANCHES.len()],
            refused: [[0; REASONS.len()]; NAMES.len()],
            calls: [[0; NAMES.len()]; 3],
            several_wrong: 0,
        }
    }

    /// A branch was taken.
    pub fn hit(&mut self, branch: Branch) {
        self.taken[branch as usize][self.origin as usize] += 1;
    }

    /// The first branch if `first`, else the second.
    pub fn either(&mut self, first: bool, branches: (Branch, Branch)) {
        self.hit(if first { branches.0 } else { branches.1 });
    }

    /// A call was made.
    pub fn call(&mut self, call: &Call) {
        self.calls[self.origin as usize][call.index()] += 1;
    }

    /// A call was refused with this number, for its settings, words or arguments.
    pub fn refused(&mut self, given: &Given, words: &[u64], call: &Call, number: u8) {
        self.refused[call.index()][reason(given, words, call, number)] += 1;
        self.several_wrong += u64::from(wrongs(given, words, call) > 1);
    }

    /// A call was refused for its table, or the class that it names.
    pub fn table_refused(&mut self, call: &Call, refusal: Refusal) {
        self.refused[call.index()][table_reason(refusal)] += 1;
    }

    /// Prints the table; the branches that should have been taken and were not.
    pub fn report(&self) -> Vec<String> {
        let mut missing = Vec::new();
        println!(
            "{:>12} {:>12} {:>12}  branch",
            "grown", "loaded", "any words"
        );
        for &(group, text, branch) in BRANCHES {
            let taken = self.taken[branch as usize];
            let note = note(branch);
            println!(
                "{:>12} {:>12} {:>12}  {group}: {text}{note}",
                taken[0], taken[1], taken[2]
            );
            if taken.iter().sum::<u64>() == 0 && !is_dead(branch) {
                missing.push(format!("{group}: {text}"));
            } else if taken[0] == 0 && note.is_empty() {
                missing.push(format!("{group}: {text} (in grown stores)"));
            }
        }
        for (call, name) in NAMES.iter().enumerate() {
            println!(
                "{:>12} {:>12} {:>12}  call: {name}",
                self.calls[0][call], self.calls[1][call], self.calls[2][call]
            );
        }
        missing.extend(self.report_refusals());
        missing
    }

    /// Prints how often each call was refused for each reason; the refusals that are missing.
    fn report_refusals(&self) -> Vec<String> {
        let mut missing = Vec::new();
        print!("{:>12}", "refused");
        REASONS.iter().for_each(|reason| print!(" {reason:>9}"));
        println!();
        for (call, name) in NAMES.iter().enumerate() {
            print!("{name:>12}");
            for (reason, what) in REASONS.iter().enumerate() {
                let count = self.refused[call][reason];
                if reason_applies(call, reason) {
                    print!(" {count:>9}");
                    if count == 0 {
                        missing.push(format!("{name} refused for {what}"));
                    }
                } else {
                    print!(" {:>9}", "-");
                    assert_eq!(count, 0, "{name} refused for {what}");
                }
            }
            println!();
        }
        println!(
            "{} of the refused calls had several things wrong",
            self.several_wrong
        );
        missing
    }
}
