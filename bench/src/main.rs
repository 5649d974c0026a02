//! Our library, the published Rust and, where it is there, the program by hand on the same traces: nanoseconds a call, instructions a call, and bytes a key.

#[cfg(feature = "by-hand")]
mod by_hand;
mod callgrind;
mod compare;
mod flags;
mod measure;
mod memory;
mod scenario;
mod sides;
mod times;

use std::process::ExitCode;

// The files by hand name each other from the crate's root.
#[cfg(feature = "by-hand")]
use by_hand::{calls, index, settings, shard};

use flags::{given, number, word};
use measure::round;
use scenario::rows::{ROWS, Row};
use sides::{ClockOnly, Nobody, Side};
use times::Times;

#[global_allocator]
static ALLOCATOR: memory::Counting = memory::Counting;

const HELP: &str = "bench [--list | --instructions | --profile | --memory] [--row NAME | --only TEXT] [--rounds N] [--calls N]

  --list          the names of the rows
  --instructions  instructions a call in place of times, counted by valgrind's callgrind
  --profile       instructions, mispredicted jumps and first-level cache misses of reads, as valgrind simulates them
  --memory        bytes a modem
  --row NAME      one row alone
  --only TEXT     the rows whose names contain this
  --rounds N      rounds of each side; 21 if not said
  --calls N       timed calls a round, fewer in some rows; 100000 if not said, 2000 for --instructions, 20000 for --profile
  --side SIDE     one round of c, crate, rust, by-hand-one, by-hand-two or nobody, printing nothing: what --instructions runs under callgrind
";

fn main() -> ExitCode {
    match run() {
        Ok(()) => ExitCode::SUCCESS,
        Err(fault) => {
            eprintln!("{fault}");
            ExitCode::FAILURE
        }
    }
}

fn run() -> Result<(), String> {
    if given("--help") {
        print!("{HELP}");
        return Ok(());
    }
    let rows = chosen()?;
    if let Some(side) = word("--side") {
        let calls = number("--calls").unwrap_or(2_000);
        return rows
            .iter()
            .try_for_each(|row| compare::one_round(row, &side, calls));
    }
    if given("--list") {
        rows.iter().for_each(|row| println!("{}", row.name()));
        return Ok(());
    }
    if given("--memory") {
        memory::print();
        return Ok(());
    }
    if given("--profile") {
        return print_profiles(&rows);
    }
    if given("--instructions") {
        return print_counts(&rows);
    }
    print_times(&rows)
}

/// The rows that are asked for.
fn chosen() -> Result<Vec<Row>, String> {
    let (name, text) = (word("--row"), word("--only").unwrap_or_default());
    let chosen = |row: &Row| match &name {
        Some(name) => row.name() == *name,
        None => row.name().contains(&text),
    };
    let rows: Vec<Row> = ROWS.into_iter().filter(chosen).collect();
    if rows.is_empty() {
        return Err("there is no such row; --list names them".to_owned());
    }
    Ok(rows)
}

/// The table of times, and what is in every number of it.
fn print_times(rows: &[Row]) -> Result<(), String> {
    let (rounds, calls) = (
        number("--rounds").unwrap_or(21),
        number("--calls").unwrap_or(100_000),
    );
    println!("{}", compare::times_head());
    for row in rows {
        println!(
            "{}",
            compare::times(row, calls, rounds).map_err(|fault| named(row, &fault))?
        );
    }
    println!();
    println!(
        "{rounds} rounds. The driver alone takes {:.1} ns a call; with the setting of the Rust's clock it takes {:.1}. Neither is taken off.",
        alone::<Nobody>(calls, rounds),
        alone::<ClockOnly>(calls, rounds)
    );
    Ok(())
}

/// The table of instructions, and what is in every number of it.
fn print_counts(rows: &[Row]) -> Result<(), String> {
    let calls = number("--calls").unwrap_or(2_000);
    println!("{}", compare::counts_head());
    for row in rows {
        let line = compare::counts(row, calls).map_err(|fault| named(row, &fault))?;
        println!("{line}");
    }
    let driver = compare::count(&ROWS[0], "nobody", calls)?;
    println!();
    println!("The driver alone takes {driver:.0} instructions a call, which are not taken off.");
    Ok(())
}

/// The table of profiles.
fn print_profiles(rows: &[Row]) -> Result<(), String> {
    let calls = number("--calls").unwrap_or(20_000);
    println!("{}", compare::profiles_head());
    for row in rows {
        let line = compare::profiles(row, calls).map_err(|fault| named(row, &fault))?;
        println!("{line}");
    }
    Ok(())
}

fn named(row: &Row, fault: &str) -> String {
    format!("{}: {fault}", row.name())
}

/// The least time of a side that is no store.
fn alone<S: Side>(calls: usize, rounds: usize) -> f64 {
    let scenario = ROWS[0].scenario(calls);
    Times::of((0..rounds).map(|_| round::<S>(&scenario).nanos).collect()).least
}
