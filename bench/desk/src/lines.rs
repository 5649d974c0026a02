//! Which call a line's bytes are: a letter, then numbers, each after one space.

use core::time::Duration;

use published::{Answer, Eviction, Limiter, Rate, WhenFull, key};

/// The most bytes that a line may have.
pub const LONGEST: usize = 100;

/// Makes the call of a line after the first; none if it is malformed.
pub fn ask(limiter: &Limiter, line: &[u8]) -> Option<Answer> {
    let (letter, mut rest) = begun(line)?;
    let rest = &mut rest;
    Some(match letter {
        b'a' => {
            let (now, key, cost) = (number(rest)?, key(number(rest)?), small(rest)?);
            finished(rest)?;
            limiter.try_(now, key, cost)
        }
        b'p' => {
            let (now, key, cost) = (number(rest)?, key(number(rest)?), small(rest)?);
            finished(rest)?;
            limiter.peek(now, key, cost)
        }
        b'r' => {
            let (now, key, cost) = (number(rest)?, key(number(rest)?), small(rest)?);
            let max_wait = number(rest)?;
            finished(rest)?;
            limiter.reserve(now, key, cost, max_wait)
        }
        b'f' => {
            let (key, cost) = (key(number(rest)?), small(rest)?);
            finished(rest)?;
            limiter.refund(key, cost)
        }
        b'd' => {
            let key = key(number(rest)?);
            finished(rest)?;
            limiter.remove(key)
        }
        _ => return None,
    })
}

/// The limiter that a settings line asks for; none if it is another line.
pub fn settings(line: &[u8]) -> Option<Limiter> {
    let (b's', mut rest) = begun(line)? else {
        return None;
    };
    let rate = Rate {
        amount: small(&mut rest)?,
        period: number(&mut rest)?,
        burst: small(&mut rest)?,
        initial: small(&mut rest)?,
    };
    let max_keys = number(&mut rest)? as usize;
    let shards = number(&mut rest)? as usize;
    let eviction = if let Some(after) = rest.strip_prefix(b" -") {
        rest = after;
        Eviction::capacity(max_keys)
    } else {
        Eviction::new(max_keys, Duration::from_nanos(number(&mut rest)?))
    };
    let eviction = eviction.with_when_full(match number(&mut rest)? {
        0 => WhenFull::RefuseNew,
        1 => WhenFull::ForgetDebt,
        _ => return None,
    });
    finished(rest)?;
    Some(Limiter::new(rate, eviction, shards))
}

/// A line's letter and what comes after it.
fn begun(line: &[u8]) -> Option<(u8, &[u8])> {
    let (&letter, rest) = line.split_first()?;
    (line.len() <= LONGEST).then_some((letter, rest))
}

/// Takes a space and a number of 1 to 20 digits and 64 bits off what is left.
fn number(rest: &mut &[u8]) -> Option<u64> {
    let digits = rest.strip_prefix(b" ")?;
    let (mut value, mut count) = (0_u64, 0);
    while let Some(digit) = digits.get(count).map(|byte| byte.wrapping_sub(b'0'))
        && digit < 10
    {
        value = value.checked_mul(10)?.checked_add(digit.into())?;
        count += 1;
    }
    *rest = &digits[count..];
    (1..=20).contains(&count).then_some(value)
}

/// The same, of 32 bits.
fn small(rest: &mut &[u8]) -> Option<u32> {
    number(rest)?.try_into().ok()
}

fn finished(rest: &[u8]) -> Option<()> {
    rest.is_empty().then_some(())
}
