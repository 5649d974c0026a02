//! Trace after trace, and how it ends.

mod by_address;

use std::fmt::Write as _;
use std::process::ExitCode;
use std::time::{Duration, Instant};

use oracle::WhenFull;
use oracle::refusals::MOST_SHARDS;

use crate::check::{self, Bench, Difference, Start, Step};
use crate::fault;
use crate::generate::{Aside, LARGE, Plan, RAISED};
use crate::options::{ENOUGH, Options};
use crate::random::Random;
use by_address::Addresses;

/// What the traces of a round are. Each has a number of calls.
#[derive(Clone, Copy)]
enum Kind {
    /// Grown from set-up, small shapes.
    Grown,
    /// Grown from set-up, the largest shapes of document 01, until slots and ledger are full.
    LargeGrown,
    /// Loaded with contents that the Rust can hold.
    Loaded,
    LargeLoaded,
    /// Any settings, words and arguments.
    Any,
    /// Loaded with contents whose indexes are damaged.
    Damaged,
    /// Grown from set-up, with so many shards asked for.
    Asked(u64),
}

/// The traces of a round: the small ones, one for each number of shards that may be asked for, and two large ones.
const ROUND: u64 = SMALL_TRACES + MOST_SHARDS + 3;
const SMALL_TRACES: u64 = 450;
const FIRST_LARGE: u64 = ROUND - 2;

/// The large ones come last in a round, so that a difference shows in a small store first.
fn kind(trace: u64) -> Kind {
    match trace % ROUND {
        FIRST_LARGE => Kind::LargeGrown,
        place if place > FIRST_LARGE => Kind::LargeLoaded,
        place if place >= SMALL_TRACES => Kind::Asked(place - SMALL_TRACES),
        place => match place % 9 {
            0 => Kind::Grown,
            1 => Kind::Any,
            2 | 3 => Kind::Damaged,
            _ => Kind::Loaded,
        },
    }
}

/// A trace that ended in a difference.
pub struct Failed {
    difference: Box<Difference>,
    text: String,
}

/// The whole run.
pub struct Run {
    options: Options,
    bench: Bench,
    addresses: Addresses,
    calls: u64,
    began: Instant,
    reported: Instant,
}

impl Run {
    pub fn new(options: Options) -> Self {
        let now = Instant::now();
        Self {
            options,
            bench: Bench::new(),
            addresses: Addresses::new(),
            calls: 0,
            began: now,
            reported: now,
        }
    }

    /// Trace after trace until there are enough calls.
    pub fn all(&mut self) -> Result<(), Failed> {
        if let Some(trace) = self.options.only {
            return self.trace(trace);
        }
        if let Some(more) = self.options.raised {
            return self.raised(more);
        }
        let mut trace = 0;
        while self.calls < self.options.calls {
            self.trace(trace)?;
            trace += 1;
            self.progress(trace);
        }
        Ok(())
    }

    fn trace(&mut self, trace: u64) -> Result<(), Failed> {
        fault::at_trace(trace);
        let mut random = Random::new(self.options.seed, trace);
        let round = (trace / ROUND) as usize;
        match kind(trace) {
            Kind::Any => self.asides(&mut random, 250),
            Kind::Damaged => (0..10).try_for_each(|_| self.damaged(&mut random, 25)),
            Kind::Asked(shards) => {
                let keys = random.pick(&[0, 1, 64, 65, 130, 200]);
                let plan = Plan::new(&mut random, (keys, shards), false);
                self.steps(&mut random, plan, false, 40)
            }
            Kind::Grown => {
                let plan = match random.below(10) {
                    0..3 => Plan::crowded(&mut random),
                    3..5 => Plan::layered(&mut random),
                    _ => Plan::small(&mut random),
                };
                self.steps(&mut random, plan, false, 900)
            }
            Kind::LargeGrown => {
                let plan = Plan::large(&mut random, LARGE[round % LARGE.len()]);
                self.steps(&mut random, plan, false, 12_000)
            }
            Kind::Loaded => {
                let plan = Plan::small(&mut random);
                self.steps(&mut random, plan, true, 40)
            }
            Kind::LargeLoaded => {
                let plan = Plan::new(&mut random, LARGE[round % LARGE.len()], false);
                self.steps(&mut random, plan, true, 1_500)
            }
        }?;
        self.modems(trace)
    }

    /// A trace for each shape that the shards were raised for, and each rule when full: until slots and ledger of a shard are full, and so many calls more.
    fn raised(&mut self, more: u64) -> Result<(), Failed> {
        let rules = [WhenFull::RefuseNew, WhenFull::ForgetDebt];
        let traces = RAISED
            .into_iter()
            .flat_map(|sizes| rules.map(|rule| (sizes, rule)));
        traces.zip(0..).try_for_each(|((sizes, rule), trace)| {
            fault::at_trace(trace);
            let mut random = Random::new(self.options.seed, trace);
            let plan = Plan::raised(&mut random, sizes, rule);
            let filling = 3 * plan.shape.cap;
            self.steps(&mut random, plan, false, filling + more)
        })
    }

    /// A trace of so many calls; now and then a call beside it on a copy of the words, with something wrong.
    fn steps(
        &mut self,
        random: &mut Random,
        mut plan: Plan,
        load: bool,
        calls: u64,
    ) -> Result<(), Failed> {
        let call = plan.set_up(random);
        let start = Start {
            given: plan.given(random, &call),
            call,
            loaded: load.then(|| plan.contents(random)),
        };
        let mut steps = Vec::new();
        let mut trio = self
            .bench
            .start(&start)
            .map_err(|difference| self.failed(&start, &steps, difference))?;
        let origin = self.bench.hits.origin;
        // Copies of large memories take long.
        let wrong = match plan.shape.words() {
            0..=10_000 => 6,
            10_001..=60_000 => 1,
            _ => 0,
        };
        for _ in 0..calls {
            let call = plan.call(random, trio.words());
            let given = plan.given(random, &call);
            let step = Step { given, call };
            steps.push(step.clone());
            self.count(&step);
            self.bench
                .step(&mut trio, &step)
                .map_err(|difference| self.failed(&start, &steps, difference))?;
            if random.chance(wrong) {
                let aside = Aside::wrong(random, &mut plan, trio.words());
                let _left = self.aside(&aside)?;
                self.lists(random, &mut plan, trio.words())?;
                self.bench.hits.origin = origin;
            }
        }
        let last = steps.last().expect("a trace has calls");
        trio.compare_all(last)
            .and_then(|()| self.bench.convert(last, trio.words(), random))
            .map_err(|difference| self.failed(&start, &steps, difference))
    }

    fn asides(&mut self, random: &mut Random, calls: u64) -> Result<(), Failed> {
        (0..calls).try_for_each(|_| {
            let aside = Aside::any(random);
            self.aside(&aside).map(drop)
        })
    }

    /// So many calls, one after another, on a memory with damaged indexes. Now and then the classes get other rates and parents.
    fn damaged(&mut self, random: &mut Random, calls: u64) -> Result<(), Failed> {
        let mut plan = if random.chance(50) {
            Plan::crowded(random)
        } else {
            Plan::small(random)
        };
        let mut words = plan.damaged_contents(random);
        for _ in 0..calls {
            if random.chance(10) {
                plan.change_table(random);
            }
            let aside = Aside::damaged(random, &mut plan, &words);
            words = self.aside(&aside)?;
            self.lists(random, &mut plan, &words)?;
        }
        Ok(())
    }

    /// Now and then a list of debts with every number of records, from 0 to two more than it takes.
    fn lists(&mut self, random: &mut Random, plan: &mut Plan, words: &[u64]) -> Result<(), Failed> {
        if !random.chance(5) {
            return Ok(());
        }
        plan.lists(random, words).into_iter().try_for_each(|call| {
            let aside = Aside::beside(random, plan, words, call);
            self.aside(&aside).map(drop)
        })
    }

    /// One call on words of any content; the words that it leaves.
    fn aside(&mut self, aside: &Aside) -> Result<Vec<u64>, Failed> {
        self.count(&Step {
            given: aside.given.clone(),
            call: aside.call,
        });
        self.bench.aside(aside).map_err(|difference| {
            let head = check::trace_head(&aside.given, aside.words.len(), Some(&aside.words));
            let text = format!("{head}{}\ndump\n", aside.call);
            Failed { difference, text }
        })
    }

    fn count(&mut self, step: &Step) {
        self.calls += 1;
        fault::at_call(self.calls);
        if self.options.show {
            println!("{:?}\n{}", step.given, step.call);
        }
    }

    /// The trace, shortened, for the oracle program, and the difference that it ends in.
    fn failed(&mut self, start: &Start, steps: &[Step], difference: Box<Difference>) -> Failed {
        let (steps, difference) = self.bench.shorten(start, steps, difference);
        let words = start.given.shape().words();
        let mut text = check::trace_head(&start.given, words, start.loaded.as_deref());
        for step in steps {
            let _ = writeln!(text, "{}", step.call);
        }
        text.push_str("dump\n");
        Failed { difference, text }
    }

    /// A line every ten seconds.
    fn progress(&mut self, traces: u64) {
        if self.reported.elapsed() > Duration::from_secs(10) {
            self.reported = Instant::now();
            println!(
                "{traces} traces, {} calls, {} calls/s",
                self.calls,
                self.rate()
            );
        }
    }

    fn rate(&self) -> u64 {
        (self.calls as f64 / self.began.elapsed().as_secs_f64()) as u64
    }

    /// Says how it ended.
    pub fn end(&mut self, ended: Result<(), Failed>) -> ExitCode {
        if let Err(failed) = ended {
            self.tell(&failed);
            return ExitCode::FAILURE;
        }
        let mut missing: Vec<String> = self.bench.hits.report();
        missing.extend(self.addresses.report());
        missing.extend(self.bench.conversions.report());
        println!(
            "{} tries through a class were held against the Rust's plain try",
            self.bench.passed
        );
        if self.bench.passed == 0 {
            missing.push("a try through a class that the Rust makes too".to_string());
        }
        let seconds = self.began.elapsed().as_secs_f64();
        println!(
            "seed {}: {} calls in {seconds:.1} s, {} calls/s, no difference",
            self.options.seed,
            self.calls,
            self.rate()
        );
        if self.options.raised.is_some() {
            return ExitCode::SUCCESS;
        }
        if self.calls < ENOUGH {
            println!("fewer than {ENOUGH} calls: not every branch need be taken");
            return ExitCode::SUCCESS;
        }
        missing
            .iter()
            .for_each(|branch| println!("NEVER TAKEN: {branch}"));
        if missing.is_empty() {
            ExitCode::SUCCESS
        } else {
            ExitCode::FAILURE
        }
    }

    /// Prints a difference, and writes the trace that ends in it.
    fn tell(&self, failed: &Failed) {
        let (seed, difference) = (self.options.seed, failed.difference.to_string());
        print!("seed {seed} call {}: {difference}", self.calls);
        let comment = difference.trim_end().replace('\n', "\n# ");
        let text = format!("# {comment}\n{}", failed.text);
        match std::fs::write(&self.options.out, text) {
            Ok(()) => println!("the calls since set-up that it takes: {}", self.options.out),
            Err(fault) => println!("{}: {fault}", self.options.out),
        }
    }
}
