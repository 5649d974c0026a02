//! The run: who is tried when, and what is printed in the end.

use std::fmt::Write;

use oracle::{Answer, Limiter, Shape, refusals};

use crate::lines::{self, Try};

/// The program's memory; the further lines that can be tried; the tries of a line.
const WORDS: usize = 8_192;
const FURTHER: usize = 200;
const TRIES: u32 = 1_000;

/// A further line: its try while it waits, and what is printed for it.
struct House {
    waits: Option<Try>,
    code: u8,
    moment: u64,
    tries: u32,
}

/// What `outage` has to print for an input.
pub fn printed(input: &[u8]) -> String {
    let lines = lines::of(input);
    let Some((first, further)) = lines.split_first() else {
        return String::new();
    };
    let Some(settings) = lines::as_settings(first) else {
        return "1 9 0\n".into();
    };
    // The store gets the words that it needs, or all of the program's where it needs more.
    let needed = if settings.max_keys > refusals::MOST_KEYS || settings.shards > 64 {
        0
    } else {
        Shape::of(&settings).words()
    };
    let (limiter, accepted) = Limiter::set_up(settings, needed.min(WORDS) as u64);
    let mut out = format!("1 {} 0\n", accepted.code);
    if accepted.code != 0 {
        return out;
    }
    let mut houses: Vec<House> = further
        .iter()
        .take(FURTHER)
        .map(|line| House::of(line))
        .collect();
    come_up(&limiter, &mut houses);
    for index in 0..further.len() {
        let number = index + 2;
        // A line past the last that is tried is printed as a malformed one.
        let none = House::of(b"");
        let House {
            code,
            moment,
            tries,
            ..
        } = houses.get(index).unwrap_or(&none);
        writeln!(out, "{number} {code} {moment} {tries}").expect("a string takes what is written");
    }
    out
}

impl House {
    /// Every line but a try is answered `9 0 0`.
    fn of(line: &[u8]) -> Self {
        Self {
            waits: lines::as_try(line),
            code: 9,
            moment: 0,
            tries: 0,
        }
    }

    /// Tries once, at the moment that it waits for.
    fn attempt(&mut self, limiter: &Limiter) {
        let Some(asked) = self.waits else { return };
        let Answer { code, number: wait } = limiter.try_(asked.now, asked.key, asked.cost);
        (self.code, self.moment, self.tries) = (code, asked.now, self.tries + 1);
        let now = asked.now.saturating_add(wait);
        self.waits = (code == 1 && self.tries < TRIES).then_some(Try { now, ..asked });
    }
}

/// The earliest moment goes first, and of equal ones the lowest line, until nobody waits.
fn come_up(limiter: &Limiter, houses: &mut [House]) {
    loop {
        // `min_by_key` gives the first of equals.
        let next = houses.iter_mut().filter(|house| house.waits.is_some());
        let Some(next) = next.min_by_key(|house| house.waits.map(|asked| asked.now)) else {
            return;
        };
        next.attempt(limiter);
    }
}
