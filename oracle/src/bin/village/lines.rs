//! Which call a line's bytes are, by document 01: a letter, then numbers of 1 to 20 digits and 64 bits, one space before each.

use oracle::{Key, Rate, Settings, WhenFull};

const LONGEST: usize = 100;

/// A try.
#[derive(Clone, Copy)]
pub struct Try {
    pub now: u64,
    pub key: Key,
    pub cost: u32,
}

/// The lines of an input: the end of the input ends the last one, if it has begun.
pub fn of(input: &[u8]) -> Vec<&[u8]> {
    let mut lines: Vec<&[u8]> = input.split(|&byte| byte == b'\n').collect();
    if lines.last().is_some_and(|last| last.is_empty()) {
        lines.pop();
    }
    lines
}

/// The try that an `a` line asks for.
pub fn as_try(line: &[u8]) -> Option<Try> {
    let [now, key, cost] = fields(line, b'a')?.try_into().ok()?;
    let (now, key) = (number(now)?, number(key)?);
    Some(Try {
        now,
        key: Key {
            hash: hash(key),
            key,
        },
        cost: small(cost)?,
    })
}

/// The settings that an `s` line asks for.
pub fn as_settings(line: &[u8]) -> Option<Settings> {
    let [
        amount,
        period,
        burst,
        initial,
        max_keys,
        shards,
        idle,
        when_full,
    ] = fields(line, b's')?.try_into().ok()?;
    let rate = Rate {
        amount: small(amount)?,
        period: number(period)?,
        burst: Some(small(burst)?),
        initial: Some(small(initial)?),
    };
    Some(Settings {
        rate: Some(rate),
        max_keys: number(max_keys)?,
        shards: number(shards)?,
        idle: if idle == b"-" {
            None
        } else {
            Some(number(idle)?)
        },
        when_full: match number(when_full)? {
            0 => WhenFull::RefuseNew,
            1 => WhenFull::ForgetDebt,
            _ => return None,
        },
    })
}

/// The fields after the letter.
fn fields(line: &[u8], letter: u8) -> Option<Vec<&[u8]>> {
    let mut fields = line.split(|&byte| byte == b' ');
    (line.len() <= LONGEST && fields.next() == Some(&[letter])).then(|| fields.collect())
}

fn number(digits: &[u8]) -> Option<u64> {
    if !(1..=20).contains(&digits.len()) || !digits.iter().all(u8::is_ascii_digit) {
        return None;
    }
    str::from_utf8(digits).ok()?.parse().ok()
}

fn small(digits: &[u8]) -> Option<u32> {
    number(digits)?.try_into().ok()
}

/// FNV-1a over the eight bytes of a key, the lowest first.
fn hash(key: u64) -> u64 {
    key.to_le_bytes()
        .iter()
        .fold(0xcbf2_9ce4_8422_2325, |hash, &byte| {
            (hash ^ u64::from(byte)).wrapping_mul(0x0000_0100_0000_01b3)
        })
}
