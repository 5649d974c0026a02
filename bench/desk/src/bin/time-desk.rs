//! Times our desk and the Rust's on the same files, in turn: lines a second.
//!
//! `time-desk [--lines N] [--rounds N]`, in the folder bench.

// Much of these three has no caller here.
#[allow(dead_code)]
#[path = "../../../src/flags.rs"]
mod flags;
#[allow(dead_code)]
#[path = "../../../src/scenario/mod.rs"]
mod scenario;
#[allow(dead_code)]
#[path = "../../../src/times.rs"]
mod times;

use std::fs::{self, File};
use std::process::{Command, ExitCode};
use std::time::Instant;

use flags::number;
use scenario::hot::{hot, hot_denied};
use scenario::known::known;
use scenario::{Hash, Op, Scenario};
use times::Times;

const OURS: &str = "../crates/desk/out/desk";
const RUST: &str = "target/release/rust-desk";
const INPUT: &str = "target/desk.in";
const OUTPUT: &str = "target/desk.out";

type Fault = Box<dyn std::error::Error>;

/// The nanoseconds that a run took: of processor time, user and system together, and by the wall clock.
type Spent = [f64; 2];
const CLOCKS: [&str; 2] = ["processor time", "wall clock"];

fn main() -> ExitCode {
    let rounds = number("--rounds").unwrap_or(21);
    let lines = number("--lines").unwrap_or(1_000_000);
    println!("rounds {rounds}, lines {lines}; million lines a second, and the ratio of the times");
    println!();
    println!("| file | ours | middle half | Rust | middle half | ours / Rust | middle half |");
    println!("|---|---:|---:|---:|---:|---:|---:|");
    for scenario in scenarios(lines) {
        if let Err(fault) = compare(&scenario, rounds) {
            eprintln!("{}: {fault}", scenario.name);
            return ExitCode::FAILURE;
        }
    }
    ExitCode::SUCCESS
}

/// Max keys and shards of all scenarios: 8,152 words of the desk's 8,192.
const SIZES: (usize, usize) = (624, 8);

/// Scenarios of bench/run, all of these sizes.
fn scenarios(lines: usize) -> [Scenario; 3] {
    let mut all = [
        hot(Op::Try, lines, None),
        hot_denied(lines),
        known(Op::Try, lines, SIZES, Hash::Fnv1a),
    ];
    let names = [
        "hot key, granted",
        "hot key, denied",
        "624 known keys, 8 shards",
    ];
    for (scenario, name) in all.iter_mut().zip(names) {
        (scenario.setup.max_keys, scenario.setup.shards) = SIZES;
        scenario.name = name.to_owned();
    }
    // Ten times the tokens that are asked for: at just as many some keys would run out in a million calls.
    all[2].setup.amount = 15_000;
    all
}

/// Runs both in turn on the scenario's lines, and prints a line of the table for each clock. All that any run prints must be the same.
fn compare(scenario: &Scenario, rounds: usize) -> Result<(), Fault> {
    fs::write(INPUT, text(scenario))?;
    run(OURS)?;
    let answers = fs::read(OUTPUT)?;
    check(scenario, str::from_utf8(&answers)?)?;
    let mut spent = Vec::new();
    for _ in 0..rounds {
        let mut round = [[0.0; 2]; 2];
        for (place, program) in round.iter_mut().zip([OURS, RUST]) {
            *place = run(program)?;
            if fs::read(OUTPUT)? != answers {
                return Err(format!("{program} printed other answers than {OURS} at first").into());
            }
        }
        spent.push(round);
    }
    let lines = answers.split(|&byte| byte == b'\n').count() - 1;
    for (clock, name) in CLOCKS.iter().enumerate() {
        // The ratio is that of two runs side by side, so that it suffers less from what others do to the machine.
        let speeds = |side: usize| {
            spent
                .iter()
                .map(move |round| lines as f64 * 1e3 / round[side][clock])
        };
        let ratios = spent.iter().map(|[ours, rust]| ours[clock] / rust[clock]);
        println!(
            "| {}, {name} | {} | {} | {} |",
            scenario.name,
            columns(speeds(0), 1),
            columns(speeds(1), 1),
            columns(ratios, 2)
        );
    }
    Ok(())
}

/// The lines of a scenario whose calls are tries.
fn text(scenario: &Scenario) -> String {
    let setup = &scenario.setup;
    let (amount, burst, keys, shards) = (setup.amount, setup.burst, setup.max_keys, setup.shards);
    let mut text = format!("s {amount} 1000000000 {burst} {burst} {keys} {shards} - 0\n");
    for call in scenario.before.iter().chain(&scenario.timed) {
        text += &format!("a {} {} {}\n", call.now, call.key.key, call.cost);
    }
    text
}

/// Whether each of the scenario's calls got the code that it is meant to give.
fn check(scenario: &Scenario, answers: &str) -> Result<(), Fault> {
    let code = scenario.code.to_string();
    let codes = answers.lines().map(|answer| answer.split(' ').nth(1));
    let right = codes
        .skip(1 + scenario.before.len())
        .filter(|&got| got == Some(&code));
    if right.count() != scenario.timed.len() {
        return Err(format!("not every line got code {code}").into());
    }
    Ok(())
}

/// Runs a program from the input to the output.
fn run(program: &str) -> Result<Spent, Fault> {
    let mut command = Command::new(program);
    command.stdin(File::open(INPUT)?);
    command.stdout(File::create(OUTPUT)?);
    let (before, start) = (children_nanos(), Instant::now());
    let status = command.status()?;
    let wall = start.elapsed().as_nanos() as f64;
    if !status.success() {
        return Err(format!("{program}: {status}").into());
    }
    Ok([children_nanos() - before, wall])
}

unsafe extern "C" {
    /// `struct rusage` is 18 numbers: seconds and microseconds of user time, those of system time, and others.
    fn getrusage(who: i32, usage: *mut [i64; 18]) -> i32;
}

/// `RUSAGE_CHILDREN` on Linux.
const CHILDREN: i32 = -1;

/// The nanoseconds of processor time that the programs run so far have taken.
fn children_nanos() -> f64 {
    let mut usage = [0; 18];
    // SAFETY: `usage` is as large as a rusage, and lives through the call.
    let failed = unsafe { getrusage(CHILDREN, &raw mut usage) };
    assert_eq!(failed, 0, "the times of the children can be read");
    (usage[0] + usage[2]) as f64 * 1e9 + (usage[1] + usage[3]) as f64 * 1e3
}

/// A median and its middle half, as two columns.
fn columns(numbers: impl Iterator<Item = f64>, places: usize) -> String {
    let Times {
        median, low, high, ..
    } = Times::of(numbers.collect());
    format!("{median:.places$} | {low:.places$} to {high:.places$}")
}
