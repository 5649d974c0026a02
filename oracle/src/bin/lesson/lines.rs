//! The lines of a random lesson: what each means, a way to write it, and the desk lines.

use std::collections::BTreeSet;

use crate::forms::{cased, comment, line, modem, number, time};
use crate::random::Random;

/// A lesson, and what has to become of it.
pub struct Lesson {
    pub text: Vec<u8>,
    /// The desk lines.
    pub written: String,
    /// The lines that are wrong, for which nothing is written, and those that begin before the clock.
    pub wrong: BTreeSet<u64>,
    pub earlier: BTreeSet<u64>,
    /// The moment of the last call that was written.
    clock: u64,
    /// How many lines there are.
    lines: u64,
}

/// A call of the desk.
#[derive(Clone, Copy)]
struct Call {
    letter: char,
    at: u64,
    key: u64,
    cost: u64,
    longest: u64,
}

/// A lesson by its seed. Its first line is that of the settings.
pub fn lesson(seed: u64) -> Lesson {
    let mut random = Random::new(seed);
    let mut lesson = Lesson {
        text: Vec::new(),
        written: String::new(),
        wrong: BTreeSet::new(),
        earlier: BTreeSet::new(),
        clock: 0,
        lines: 0,
    };
    if random.once_in(3) {
        lesson.text.extend(b"\xef\xbb\xbf");
    }
    let end: &[u8] = if random.once_in(3) { b"\r\n" } else { b"\n" };
    let text = settings(&mut random, &mut lesson);
    lesson.push(&text, end);
    for _ in 0..random.below(24) {
        lesson.lines += 1;
        let text = match random.below(12) {
            0 => comment(&mut random).to_string(),
            1 => line(&mut random, &[]),
            2 | 3 => wrong(&mut random, &mut lesson),
            4 | 5 => village(&mut random, &mut lesson),
            _ => one(&mut random, &mut lesson),
        };
        lesson.push(&text, end);
    }
    if random.once_in(3) {
        lesson.text.truncate(lesson.text.len() - end.len());
    }
    lesson
}

impl Lesson {
    fn push(&mut self, text: &str, end: &[u8]) {
        self.text.extend(text.as_bytes());
        self.text.extend(end);
    }

    /// The desk line of a call.
    fn write(&mut self, call: Call) {
        let Call {
            letter,
            at,
            key,
            cost,
            longest,
        } = call;
        self.written += &match letter {
            'r' => format!("r {at} {key} {cost} {longest}\n"),
            'f' => format!("f {key} {cost}\n"),
            'd' => format!("d {key}\n"),
            _ => format!("{letter} {at} {key} {cost}\n"),
        };
        if is_timed(letter) {
            self.clock = at;
        }
    }

    /// Notes whether a call that is about to be written begins before the clock.
    fn note(&mut self, call: Call) {
        if is_timed(call.letter) && call.at < self.clock {
            self.earlier.insert(self.lines);
        }
    }
}

fn is_timed(letter: char) -> bool {
    matches!(letter, 'a' | 'p' | 'r')
}

/// Settings that the desk accepts.
fn settings(random: &mut Random, lesson: &mut Lesson) -> String {
    lesson.lines += 1;
    let amount = 1 + random.below(5);
    let period = random.of(&[
        1_000_000_000_u64,
        60_000_000_000,
        1_500_000,
        7,
        60_000_000_000_000,
    ]);
    let burst = 1 + random.below(6);
    let initial = random.below(burst + 1);
    let (modems, shards) = (random.of(&[1_u64, 2, 5, 60]), random.of(&[1_u64, 2]));
    let idle = random.of(&[
        None,
        None,
        Some(0),
        Some(1_250_000_000),
        Some(90_000_000_000),
    ]);
    let rule = random.below(2);
    let told = idle.map_or("-".to_string(), |nanos: u64| nanos.to_string());
    lesson.written +=
        &format!("s {amount} {period} {burst} {initial} {modems} {shards} {told} {rule}\n");
    let idle = match idle {
        Some(nanos) => time(random, nanos),
        None => "-".to_string(),
    };
    let words = [
        cased(random, "s"),
        number(random, amount),
        time(random, period),
        number(random, burst),
        number(random, initial),
        number(random, modems),
        number(random, shards),
        idle,
        number(random, rule),
    ];
    line(random, &words)
}

/// A call, most of them at or after the clock.
fn call(random: &mut Random, clock: u64) -> Call {
    let step = random.of(&[0, 1, 250_000_000, 500_000_000, 1_250_000, 60_000_000_000]);
    let at = if random.once_in(6) {
        clock / 2
    } else {
        clock + step
    };
    Call {
        letter: random.of(&['a', 'a', 'a', 'p', 'r', 'f', 'd']),
        at,
        key: random.of(&[1, 7, 8, 1_001, 0x001a_2b3c_4d5e, 0xffff_ffff_fff0, 1 << 60]),
        cost: random.below(6),
        longest: random.of(&[0, 500_000_000, 2_000_000_000]),
    }
}

/// The words of a call. A moment may be written as so much after the clock.
fn words(random: &mut Random, call: Call, clock: u64) -> Vec<String> {
    let mut words = vec![cased(random, &call.letter.to_string())];
    if is_timed(call.letter) {
        words.push(if call.at >= clock && random.once_in(2) {
            format!("+{}", time(random, call.at - clock))
        } else {
            time(random, call.at)
        });
    }
    words.push(modem(random, call.key));
    if call.letter != 'd' {
        words.push(number(random, call.cost));
    }
    if call.letter == 'r' {
        words.push(time(random, call.longest));
    }
    words
}

/// A line of one call.
fn one(random: &mut Random, lesson: &mut Lesson) -> String {
    let call = call(random, lesson.clock);
    let words = words(random, call, lesson.clock);
    lesson.note(call);
    lesson.write(call);
    line(random, &words)
}

/// A line of several calls, for one modem after another.
fn village(random: &mut Random, lesson: &mut Lesson) -> String {
    let first = call(random, lesson.clock);
    let count = random.of(&[1, 2, 3, 20]);
    let spacing = random.of(&[0, 1, 250_000_000, 1_000_000]);
    let mut all = vec![
        cased(random, "v"),
        number(random, count),
        time(random, spacing),
    ];
    all.extend(words(random, first, lesson.clock));
    lesson.note(first);
    for place in 0..count {
        lesson.write(Call {
            at: first.at + spacing * place,
            key: first.key + place,
            ..first
        });
    }
    line(random, &all)
}

/// A line that is wrong. The clock stays.
fn wrong(random: &mut Random, lesson: &mut Lesson) -> String {
    lesson.wrong.insert(lesson.lines);
    let mistakes = [
        "x",
        "a",
        "a 0 7",
        "a 0 7 1 1",
        "a 0 7 1s",
        "a 5m 7 1",
        "a 0.5ns 7 1",
        "a 0.0000000001s 7 1",
        "a 1.2.3s 7 1",
        "a . 7 1",
        "a s 7 1",
        "a -1 7 1",
        "a +-1 7 1",
        "a + 7 1",
        "a ++1 7 1",
        "a 1,5s 7 1",
        "a 1 s 7 1",
        "a 6000000h 7 1",
        "a 18446744073709551616 7 1",
        "a 0 18446744073709551616 1",
        "a 0 7 4294967296",
        "a 0 7 1.0",
        "a 0 00:1a:2b:3c:4d 1",
        "a 0 00:1a:2b:3c:4d:5g 1",
        "a 0 00:1a:2b:3c:4d:5e:6f 1",
        "a 0 00-1a-2b-3c-4d-5e 1",
        "a 0 0:1a:2b:3c:4d:5e 1",
        "p 0 seven 1",
        "r 0 7 1",
        "r 0 7 1 2m",
        "f 7",
        "f 0 7 1",
        "d",
        "d 7 1",
        "aa 0 7 1",
        "v 2 1 a 0 7",
        "v 0 1 a 0 7 1",
        "v 65537 1 a 0 7 1",
        "v 2 1 v 2 1 a 0 7 1",
        "v 2 1 s 2 1s 4 4 2 1 - 0",
        "v 2 1.5ns a 0 7 1",
        "v 2 1 a 18446744073709551615 7 1",
        "v 2 0 d 18446744073709551615",
        "s 2 1s 4 4 2 1 -",
        "s 2 1s 4 4 2 1 - 2",
        "s 2 1s 4 4 2 1 -- 0",
        "\u{feff}a 0 7 1",
        "a 0 7 1 \u{b5}",
    ];
    let words: Vec<String> = random
        .of(&mistakes)
        .split(' ')
        .map(str::to_string)
        .collect();
    line(random, &words)
}
