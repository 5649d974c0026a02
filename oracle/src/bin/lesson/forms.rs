//! The ways in which a person writes a number, a time, a modem and a line.

use crate::random::Random;

/// The units of time, with their nanoseconds.
const UNITS: [(&str, u64); 6] = [
    ("ns", 1),
    ("us", 1_000),
    ("ms", 1_000_000),
    ("s", 1_000_000_000),
    ("min", 60_000_000_000),
    ("h", 3_600_000_000_000),
];

/// The most digits that a time with a unit has.
const MOST_DIGITS: usize = 17;

/// A number, now and then with zeros in front.
pub fn number(random: &mut Random, value: u64) -> String {
    if random.once_in(12) {
        return format!("0{value}");
    }
    value.to_string()
}

/// A time: nanoseconds, or a unit with a decimal fraction where that comes to whole digits.
pub fn time(random: &mut Random, nanos: u64) -> String {
    if random.once_in(3) {
        return number(random, nanos);
    }
    let (unit, size) = random.of(&UNITS);
    let decimal = decimal(random, nanos, size).filter(|text| text.len() <= MOST_DIGITS);
    match decimal {
        Some(text) => text + &cased(random, unit),
        None => number(random, nanos),
    }
}

/// How many units so many nanoseconds are, if that is a decimal number of few digits.
fn decimal(random: &mut Random, nanos: u64, size: u64) -> Option<String> {
    let (whole, mut rest) = (nanos / size, nanos % size);
    let mut text = whole.to_string();
    if rest == 0 && !random.once_in(4) {
        return Some(text);
    }
    text.push('.');
    while rest != 0 {
        let tenfold = u128::from(rest) * 10;
        text += &(tenfold / u128::from(size)).to_string();
        rest = (tenfold % u128::from(size)) as u64;
        if text.len() > MOST_DIGITS {
            return None;
        }
    }
    if text.ends_with('.') || random.once_in(5) {
        text.push('0');
    }
    Some(text)
}

/// A modem: its number or, if it has at most 48 bits, an address.
pub fn modem(random: &mut Random, key: u64) -> String {
    if key >> 48 != 0 || !random.once_in(3) {
        return number(random, key);
    }
    let [_, _, bytes @ ..] = key.to_be_bytes();
    let pairs = bytes.map(|byte| format!("{byte:02x}"));
    cased(random, &pairs.join(":"))
}

/// Letters, in either case.
pub fn cased(random: &mut Random, text: &str) -> String {
    match random.below(6) {
        0 => text.to_uppercase(),
        1 => text
            .chars()
            .map(|letter| {
                if random.once_in(2) {
                    letter.to_ascii_uppercase()
                } else {
                    letter
                }
            })
            .collect(),
        _ => text.to_string(),
    }
}

/// What stands between two words, and before and after them.
fn blanks(random: &mut Random) -> &'static str {
    random.of(&[" ", " ", " ", " ", "  ", "\t", " \t ", "    "])
}

fn margin(random: &mut Random) -> &'static str {
    random.of(&["", "", "", "", " ", "\t", "  \t"])
}

/// Words as a line without its end, now and then with a comment.
pub fn line(random: &mut Random, words: &[String]) -> String {
    let mut text = margin(random).to_string();
    for (place, word) in words.iter().enumerate() {
        if place > 0 {
            text += blanks(random);
        }
        text += word;
    }
    text += margin(random);
    text + comment(random)
}

/// A comment, or none.
pub fn comment(random: &mut Random) -> &'static str {
    random.of(&[
        "",
        "",
        "",
        "",
        "# the farm",
        "#",
        " # a 0 7 1 # and more",
        "\t#\u{e9}t\u{e9}",
    ])
}
