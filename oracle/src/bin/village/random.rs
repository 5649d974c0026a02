//! Random villages: few modems and little room, so that lines wait, and moments that tie.

use std::collections::BTreeMap;
use std::fmt;

/// Xorshift, from a seed.
struct Random(u64);

impl Random {
    fn next(&mut self) -> u64 {
        self.0 ^= self.0 << 13;
        self.0 ^= self.0 >> 7;
        self.0 ^= self.0 << 17;
        self.0
    }

    /// One of so many numbers.
    fn below(&mut self, count: u64) -> u64 {
        self.next() % count
    }

    /// One of these.
    fn of<T: Copy>(&mut self, choices: &[T]) -> T {
        choices[self.below(choices.len() as u64) as usize]
    }
}

/// The input of a village.
pub fn village(seed: u64) -> Vec<u8> {
    let mut random = Random(seed.wrapping_mul(0x9e37_79b9_7f4a_7c15) | 1);
    for _ in 0..8 {
        random.next();
    }
    let mut input = settings(&mut random).into_bytes();
    let lines = match random.below(20) {
        0 => random.of(&[0, 1, 199, 200, 201, 205]),
        _ => 1 + random.below(24),
    };
    let modems = 1 + random.below(6);
    let step = random.of(&[1, 250_000_000, 500_000_000, 3]);
    let start = random.of(&[0, 0, 0, 7, (1 << 62) - 2_000_000_000, (1 << 62) - 1]);
    for _ in 0..lines {
        input.push(b'\n');
        input.extend(line(&mut random, modems, step, start));
    }
    if random.below(4) != 0 {
        input.push(b'\n');
    }
    input
}

/// Settings, most of them accepted.
fn settings(random: &mut Random) -> String {
    let burst = 1 + random.below(5);
    format!(
        "s {} {} {burst} {} {} {} {} {}",
        random.of(&[1, 1, 2, 2, 3, 3, 5, 10, 10, 0]),
        random.of(&[1_000_000_000_u64, 1_000_000_000, 7, 1, 60_000_000_000]),
        random.below(burst + 1),
        random.of(&[1, 1, 2, 3, 8, 100, 700]),
        random.of(&[1, 1, 2, 4]),
        random.of(&["-", "-", "0", "1000000000"]),
        random.of(&[0, 0, 0, 1]),
    )
}

/// A further line: a try, or now and then something else.
fn line(random: &mut Random, modems: u64, step: u64, start: u64) -> Vec<u8> {
    let now = start.saturating_add(step * random.below(6));
    let modem = 1 + random.below(modems);
    let cost = random.of(&[1, 1, 1, 2, 3, 4, 0, 6, u32::MAX]);
    match random.below(24) {
        0 => b"p 0 1 1".to_vec(),
        1 => b"x".to_vec(),
        2 => Vec::new(),
        3 => format!("a {now} {modem} {cost} ").into_bytes(),
        4 => format!("a 4611686018427387905 {modem} {cost}").into_bytes(),
        5 => format!("a {now} {modem} 4294967296").into_bytes(),
        _ => format!("a {now} {modem} {cost}").into_bytes(),
    }
}

/// How many lines got each code, and how many made all tries.
#[derive(Default)]
pub struct Counts {
    codes: BTreeMap<String, u64>,
    again: u64,
}

impl Counts {
    /// Counts what is printed for a village.
    pub fn add(&mut self, printed: &str) {
        for line in printed.lines().skip(1) {
            let fields: Vec<&str> = line.split(' ').collect();
            *self.codes.entry(fields[1].into()).or_default() += 1;
            self.again += u64::from(fields[3].len() > 1);
        }
    }

    /// A code that no line got and some line should have got.
    pub fn missing(&self) -> Option<&'static str> {
        ["0", "1", "2", "9", "16"]
            .into_iter()
            .find(|&code| !self.codes.contains_key(code))
    }
}

impl fmt::Display for Counts {
    fn fmt(&self, out: &mut fmt::Formatter<'_>) -> fmt::Result {
        for (code, count) in &self.codes {
            write!(out, "{count} lines with code {code}, ")?;
        }
        write!(out, "{} with 10 tries or more", self.again)
    }
}
