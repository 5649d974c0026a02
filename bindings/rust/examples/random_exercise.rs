//! A random exercise for the desk program: its lines on standard output, and on standard error what the library answers to the calls themselves, as the desk
//! prints it. bench/check-lines compares the two desks with it.
//!
//! `cargo run --offline --example random_exercise -- SEED LINES`

use std::env;
use std::error::Error;
use std::io::{self, BufWriter, Write};
use std::time::Duration;

use limiter::{Decision, DeskLine, Key, OwnedStore, Rate, Settings};

/// 2 tokens a second, at most 4, for 40 modems in 4 shards.
const SETTINGS: &str = "s 2 1000000000 4 4 40 4 - 0";

fn main() -> Result<(), Box<dyn Error>> {
    let mut words = env::args().skip(1);
    let mut next = || words.next().unwrap_or_default().parse::<u64>();
    let (mut random, count) = (Random(next()?), next()?);
    let mut lines = BufWriter::new(io::stdout().lock());
    let mut answers = BufWriter::new(io::stderr().lock());

    let settings = Settings::new(Rate::per_second(2).burst(4), 40).shards(4);
    let mut store = OwnedStore::new(settings)?;
    writeln!(lines, "{SETTINGS}")?;
    writeln!(answers, "1 0 0")?;
    let mut now = Duration::ZERO;
    for number in 2..count + 2 {
        now += Duration::from_millis(random.below(40) * random.below(40));
        let line = random.line(now);
        let (code, wait) = answer(&mut store, line)?;
        writeln!(lines, "{line}")?;
        writeln!(answers, "{number} {code} {}", wait.as_nanos())?;
    }
    Ok(())
}

/// The code and the wait that the desk prints for a call.
fn answer(store: &mut OwnedStore, line: DeskLine) -> Result<(u64, Duration), Box<dyn Error>> {
    let told = |decision| match decision {
        Decision::Retry { after, .. } => (1, after),
        Decision::Impossible => (2, Duration::ZERO),
        _ => (0, Duration::ZERO),
    };
    let known = |known| (if known { 0 } else { 3 }, Duration::ZERO);
    Ok(match line {
        DeskLine::Try { now, key, cost } => told(store.try_acquire(now, Key::fnv1a(key), cost)?),
        DeskLine::Peek { now, key, cost } => told(store.peek(now, Key::fnv1a(key), cost)?),
        DeskLine::Reserve {
            now,
            key,
            cost,
            max_wait,
        } => store
            .reserve(now, Key::fnv1a(key), cost, max_wait)?
            .map_or((3, Duration::ZERO), |reserved| (0, reserved.wait)),
        DeskLine::Refund { key, cost } => known(store.refund(Key::fnv1a(key), cost)?),
        DeskLine::Remove { key } => known(store.remove(Key::fnv1a(key))?),
        other => return Err(format!("no answer for {other:?}").into()),
    })
}

/// Reproducible random numbers.
struct Random(u64);

impl Random {
    fn word(&mut self) -> u64 {
        self.0 = self
            .0
            .wrapping_mul(6_364_136_223_846_793_005)
            .wrapping_add(1_442_695_040_888_963_407);
        (self.0 ^ (self.0 >> 29)) >> 8
    }

    fn below(&mut self, end: u64) -> u64 {
        self.word() % end
    }

    /// A call of every kind, most of them for one of 60 modems, some for any key.
    fn line(&mut self, now: Duration) -> DeskLine {
        let key = match self.below(8) {
            0 => self.word() << self.below(9) >> self.below(50),
            _ => self.below(60),
        };
        let cost = match self.below(20) {
            0 => u32::MAX - u32::from(self.below(9) == 0),
            n => u32::from(n % 6 > 0) + u32::from(n % 5 == 0) + u32::from(n % 4 == 0),
        };
        match self.below(10) {
            0..4 => DeskLine::Try { now, key, cost },
            4 | 5 => DeskLine::Peek { now, key, cost },
            6 | 7 => DeskLine::Reserve {
                now,
                key,
                cost,
                max_wait: Duration::from_nanos(self.word() >> 10 >> self.below(40)),
            },
            8 => DeskLine::Refund { key, cost },
            _ => DeskLine::Remove { key },
        }
    }
}
