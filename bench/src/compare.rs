//! A row of the tables: all sides on the same calls.

use crate::callgrind::{Profile, instructions, profile};
use crate::measure::{Round, round};
use crate::scenario::rows::Row;
use crate::scenario::{Op, Scenario};
#[cfg(feature = "by-hand")]
use crate::sides::ByHand;
use crate::sides::{CCall, Nobody, Rust, Side, ThroughCrate};
use crate::times::Times;

/// Whether the tables have columns for the program by hand.
const BY_HAND: bool = cfg!(feature = "by-hand");

/// The sides that are the two forms of the program by hand.
const FORMS: [&str; 2] = ["by-hand-one", "by-hand-two"];

/// The heads of the two tables, each with the columns that the program by hand adds.
const TIMES: [&str; 2] = [
    "| row | C call, ns | crate, ns | Rust, ns | C call / Rust | middle half | crate / Rust | middle half |",
    " by hand, ns | C call / by hand | middle half |",
];
const COUNTS: [&str; 2] = [
    "| row | C call | crate | Rust | C call / Rust |",
    " by hand | C call / by hand |",
];

/// The head of the table of times.
pub fn times_head() -> String {
    head(TIMES)
}

/// The head of the table of instructions.
pub fn counts_head() -> String {
    head(COUNTS)
}

fn head([columns, by_hand]: [&str; 2]) -> String {
    let columns = format!("{columns}{}", if BY_HAND { by_hand } else { "" });
    let numbers = "---:|".repeat(columns.matches('|').count() - 2);
    format!("{columns}\n|---|{numbers}")
}

/// The times of one side, round by round.
type Rounds = Vec<f64>;

/// Times the sides in turn, round by round, and gives a line of the table.
pub fn times(row: &Row, calls: usize, rounds: usize) -> Result<String, String> {
    let scenario = row.scenario(calls);
    let [mut c_call, mut through, mut rust] = [const { Rounds::new() }; 3];
    let mut by_hand = [const { Rounds::new() }; 2];
    for _ in 0..rounds {
        let one = checked::<CCall>(&scenario)?;
        for (times, round) in by_hand.iter_mut().zip(forms(&scenario)?) {
            same(&one, &round)?;
            times.push(round.nanos);
        }
        let other = checked::<Rust>(&scenario)?;
        same(&one, &other)?;
        c_call.push(one.nanos);
        rust.push(other.nanos);
        let third = checked::<ThroughCrate>(&scenario)?;
        same(&third, &other)?;
        through.push(third.nanos);
    }
    let mut line = format!(
        "| {} | {} | {} | {} | {} | {} |",
        scenario.name,
        time(&c_call),
        time(&through),
        time(&rust),
        ratio(&c_call, &rust),
        ratio(&through, &rust)
    );
    if is_by_hand(&scenario) {
        let [one, two] = &by_hand;
        let quicker = if least(one) < least(two) { one } else { two };
        line += &format!(" {} | {} |", time(quicker), ratio(&c_call, quicker));
    } else if BY_HAND {
        line += " | | |";
    }
    Ok(line)
}

/// Whether the program by hand has the calls of a row.
fn is_by_hand(scenario: &Scenario) -> bool {
    let lacks = |op| matches!(op, Op::SetUp | Op::Through | Op::Debts);
    BY_HAND && !scenario.timed.iter().any(|call| lacks(call.op))
}

/// A round of each form of the program by hand, if it has the calls of the row.
#[cfg(feature = "by-hand")]
fn forms(scenario: &Scenario) -> Result<Vec<Round>, String> {
    if !is_by_hand(scenario) {
        return Ok(Vec::new());
    }
    Ok(vec![
        checked::<ByHand<false>>(scenario)?,
        checked::<ByHand<true>>(scenario)?,
    ])
}

/// There is no program by hand.
#[cfg(not(feature = "by-hand"))]
#[expect(clippy::unnecessary_wraps, reason = "as where there is one")]
fn forms(_: &Scenario) -> Result<Vec<Round>, String> {
    Ok(Vec::new())
}

/// A side's round, in which every timed call has to get the code that is meant.
fn checked<S: Side>(scenario: &Scenario) -> Result<Round, String> {
    let round = round::<S>(scenario);
    if round.sums[1].0 == scenario.code * scenario.timed.len() as u64 {
        Ok(round)
    } else {
        Err(format!("not every timed call got code {}", scenario.code))
    }
}

/// Both sides have to give the same answers.
fn same(one: &Round, other: &Round) -> Result<(), String> {
    if one.sums == other.sums {
        return Ok(());
    }
    let (one, other) = (one.sums, other.sums);
    Err(format!(
        "sums of codes and numbers: ours {one:?}, another's {other:?}"
    ))
}

/// The least of a side's times.
fn least(rounds: &Rounds) -> f64 {
    rounds.iter().copied().fold(f64::INFINITY, f64::min)
}

/// The least of a side's times, and the median.
fn time(rounds: &Rounds) -> String {
    let times = Times::of(rounds.clone());
    format!("{:.1} ({:.1})", times.least, times.median)
}

/// The ratio of the least times; and the middle half of the ratios of the rounds side by side, which suffer alike from what others do to the machine.
fn ratio(ones: &Rounds, others: &Rounds) -> String {
    let by_round = ones.iter().zip(others).map(|(one, other)| one / other);
    let ratios = Times::of(by_round.collect());
    let of_least = least(ones) / least(others);
    format!("{of_least:.2} | {:.2} to {:.2}", ratios.low, ratios.high)
}

/// Counts the instructions of the sides, and gives a line of the table.
pub fn counts(row: &Row, calls: usize) -> Result<String, String> {
    let count = |side: &str| count(row, side, calls);
    let (c_call, through, rust) = (count("c")?, count("crate")?, count("rust")?);
    let (name, ratio) = (row.name(), c_call / rust);
    let mut line = format!("| {name} | {c_call:.0} | {through:.0} | {rust:.0} | {ratio:.2} |");
    if is_by_hand(&row.scenario(calls)) {
        let [one, two] = FORMS.map(count);
        let fewer = one?.min(two?);
        line += &format!(" {fewer:.0} | {:.2} |", c_call / fewer);
    } else if BY_HAND {
        line += " | |";
    }
    Ok(line)
}

/// The instructions that a timed call of a row takes on a side.
pub fn count(row: &Row, side: &str, calls: usize) -> Result<f64, String> {
    let counted = instructions(&row.name(), side, calls)?;
    Ok(counted as f64 / row.scenario(calls).timed.len() as f64)
}

/// The head of the table of profiles.
pub fn profiles_head() -> String {
    let sides = if BY_HAND {
        "C call, by hand, Rust"
    } else {
        "C call, Rust"
    };
    format!("| {sides} | instructions | mispredicted jumps | misses |\n|---|---|---|---|")
}

/// Instructions, mispredicted jumps and misses of the sides, and a line of the table.
pub fn profiles(row: &Row, calls: usize) -> Result<String, String> {
    let scenario = row.scenario(calls);
    let profile = |side: &str| profile(&row.name(), side, calls);
    let mut sides = vec![profile("c")?, profile("rust")?];
    if is_by_hand(&scenario) {
        let [one, two] = FORMS.map(profile);
        let (one, two) = (one?, two?);
        let fewer = one.instructions < two.instructions;
        sides.insert(1, if fewer { one } else { two });
    }
    let timed = scenario.timed.len() as f64;
    let cell = |digits: usize, count: fn(&Profile) -> u64| {
        let counts = sides.iter().map(|side| count(side) as f64 / timed);
        let counts: Vec<String> = counts.map(|count| format!("{count:.digits$}")).collect();
        counts.join(", ")
    };
    Ok(format!(
        "| {} | {} | {} | {} |",
        row.name(),
        cell(0, |side| side.instructions),
        cell(2, |side| side.mispredicted),
        cell(1, |side| side.misses)
    ))
}

/// One round of one side, to be counted by callgrind.
pub fn one_round(row: &Row, side: &str, calls: usize) -> Result<(), String> {
    let scenario = row.scenario(calls);
    match side {
        "c" => checked::<CCall>(&scenario),
        "crate" => checked::<ThroughCrate>(&scenario),
        "rust" => checked::<Rust>(&scenario),
        "nobody" => Ok(round::<Nobody>(&scenario)),
        #[cfg(feature = "by-hand")]
        "by-hand-one" => checked::<ByHand<false>>(&scenario),
        #[cfg(feature = "by-hand")]
        "by-hand-two" => checked::<ByHand<true>>(&scenario),
        _ => return Err(format!("{side}? --help names the sides")),
    }
    .map(|_| ())
}
