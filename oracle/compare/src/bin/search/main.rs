//! A search for a list of calls in which a modem is granted more than the window with refunds allows (02, request 11). It makes random lists of tries,
//! tries through a class, refunds and reservations on our library, by key and by address, and computes both sides of the statement for every window. README.md
//! of the oracle says what it reports; `--help` how to run it.

mod list;
#[path = "../../random.rs"]
#[allow(dead_code, reason = "the comparison uses more of it")]
mod random;
mod sides;
mod store;
mod tally;

use std::process::ExitCode;

use list::List;
use random::Random;
use tally::Tally;

/// How many lists it takes to be sure that every bound is reached.
const ENOUGH: u64 = 20_000;
const HELP: &str = "search [--lists N] [--seed S]

  --lists N     so many lists, 20000 if not said
  --seed S      another seed than 1
";

/// The number of lists and the seed, or what is wrong with the command line.
fn options() -> Result<(u64, u64), String> {
    let (mut lists, mut seed) = (ENOUGH, 1);
    let mut words = std::env::args().skip(1);
    while let Some(word) = words.next() {
        let value = words.next().and_then(|text| text.parse().ok());
        match (word.as_str(), value) {
            ("--lists", Some(number)) => lists = number,
            ("--seed", Some(number)) => seed = number,
            _ => return Err(format!("{word}?\n{HELP}")),
        }
    }
    Ok((lists, seed))
}

fn main() -> ExitCode {
    let (lists, seed) = match options() {
        Ok(options) => options,
        Err(fault) => {
            eprint!("{fault}");
            return ExitCode::from(2);
        }
    };
    let mut tally = Tally::default();
    for number in 0..lists {
        let list = List::made(&mut Random::new(seed, number));
        if let Err(fault) = tally.add(&list) {
            println!(
                "search: list {number} of seed {seed}: {fault}\n{}",
                list.trace
            );
            return ExitCode::FAILURE;
        }
    }
    println!("search: seed {seed}, {tally}");
    if tally.found_all() {
        return ExitCode::SUCCESS;
    }
    println!("search: a bound was not reached, or a weaker statement was not refuted");
    ExitCode::FAILURE
}
