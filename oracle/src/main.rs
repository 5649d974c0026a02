//! `oracle`: reads a trace on standard input, a call a line, and prints each answer as `LINE CODE NUMBER`.
//! oracle/README.md lists the lines.

use std::io::{self, BufRead, BufWriter, Write};
use std::process::ExitCode;

use oracle::{Answer, Key, Limiter, OneShard, Rate, Settings, WhenFull};

fn main() -> ExitCode {
    let mut out = BufWriter::new(io::stdout().lock());
    match run(io::stdin().lock(), &mut out)
        .and_then(|()| out.flush().map_err(|error| error.to_string()))
    {
        Ok(()) => ExitCode::SUCCESS,
        Err(message) => {
            // The answers before the fault still go out.
            let _flushed = out.flush();
            eprintln!("oracle: {message}");
            ExitCode::from(2)
        }
    }
}

/// Answers every line of `trace`, up to the first that is malformed.
fn run(trace: impl BufRead, out: &mut impl Write) -> Result<(), String> {
    let mut limiter = None;
    for (index, line) in trace.lines().enumerate() {
        let number = index + 1;
        let line = line.map_err(|error| format!("line {number}: {error}"))?;
        let printed =
            answer(&mut limiter, &line).map_err(|fault| format!("line {number}: {fault}"))?;
        let written = match printed {
            Printed::Nothing => Ok(()),
            Printed::Answer(code, value) => writeln!(out, "{number} {code} {value}"),
            Printed::Shards(shards) => shards
                .iter()
                .try_for_each(|words| writeln!(out, "{}", parted(words))),
        };
        written.map_err(|error| error.to_string())?;
    }
    Ok(())
}

/// What a line prints.
enum Printed {
    Nothing,
    Answer(u8, u64),
    Shards(Vec<Vec<u64>>),
}

impl From<Answer> for Printed {
    fn from(answer: Answer) -> Self {
        Self::Answer(answer.code, answer.number)
    }
}

impl From<Result<(), u64>> for Printed {
    /// Done, or the wait until it can be.
    fn from(done: Result<(), u64>) -> Self {
        done.map_or_else(|wait| Self::Answer(1, wait), |()| Self::Answer(0, 0))
    }
}

/// Makes the call of one line.
fn answer(limiter: &mut Option<Limiter>, line: &str) -> Result<Printed, String> {
    let Some((name, mut fields)) = Fields::of(line) else {
        return Ok(Printed::Nothing);
    };
    if name == "set" {
        let (settings, lent) = settings(&mut fields)?;
        fields.end()?;
        let (made, accepted) = lent.map_or_else(
            || Limiter::new(settings),
            |lent| Limiter::set_up(settings, lent),
        );
        *limiter = Some(made);
        return Ok(accepted.into());
    }
    let limiter = limiter.as_ref().ok_or("a `set` line comes first")?;
    let printed = match operation(limiter, name, &mut fields)? {
        Some(answer) => answer.into(),
        None => one_shard(limiter, name, &mut fields)?,
    };
    fields.end()?;
    Ok(printed)
}

/// The settings of a `set` line, and the words that are lent if it says so.
fn settings(fields: &mut Fields) -> Result<(Settings, Option<u64>), String> {
    let amount = fields.optional()?;
    let period = fields.number();
    let (burst, initial) = (fields.optional(), fields.optional());
    let rate = match amount {
        None => None,
        Some(amount) => Some(Rate {
            amount: narrow(amount)?,
            period: period?,
            burst: burst?,
            initial: initial?,
        }),
    };
    let (max_keys, shards, idle) = (fields.number()?, fields.number()?, fields.optional()?);
    let when_full = match fields.number()? {
        0 => WhenFull::RefuseNew,
        1 => WhenFull::ForgetDebt,
        _ => return Err("the last setting is 0 (RefuseNew) or 1 (ForgetDebt)".into()),
    };
    let lent = if fields.is_empty() {
        None
    } else {
        Some(fields.number()?)
    };
    Ok((
        Settings {
            rate,
            max_keys,
            shards,
            idle,
            when_full,
        },
        lent,
    ))
}

/// The operations of the limiter.
fn operation(limiter: &Limiter, name: &str, fields: &mut Fields) -> Result<Option<Answer>, String> {
    let answer = match name {
        "try" => limiter.try_(fields.number()?, fields.key()?, fields.small()?),
        "peek" => limiter.peek(fields.number()?, fields.key()?, fields.small()?),
        "available" => limiter.available(fields.number()?, fields.key()?),
        "reserve" => limiter.reserve(
            fields.number()?,
            fields.key()?,
            fields.small()?,
            fields.number()?,
        ),
        "turned-away" => limiter.turned_away(fields.key()?),
        "refund" => limiter.refund(fields.key()?, fields.small()?),
        "remove" => limiter.remove(fields.key()?),
        "clear" => limiter.clear(),
        "length" => limiter.len(),
        _ => return Ok(None),
    };
    Ok(Some(answer))
}

/// The contents of the shards, and the calls on one shard alone.
fn one_shard(limiter: &Limiter, name: &str, fields: &mut Fields) -> Result<Printed, String> {
    if name == "dump" {
        let shards = (0..limiter.shards()).filter_map(|index| limiter.shard_words(index));
        return Ok(Printed::Shards(shards.collect()));
    }
    if !["load", "take", "record", "sweep", "pay", "idle", "evict"].contains(&name) {
        return Err(format!("no such line: {name}"));
    }
    if limiter.settings().rate.is_none() && ["pay", "idle", "evict"].contains(&name) {
        return Err("a closed limiter has no buckets to look at".into());
    }
    let (index, shard) = shard(limiter, fields)?;
    let forget = limiter.settings().when_full == WhenFull::ForgetDebt;
    Ok(match name {
        "load" => {
            limiter
                .load_shard(index, &fields.rest()?)
                .map_err(|fault| format!("the Rust has no such contents: {fault:?}"))?;
            Printed::Answer(0, 0)
        }
        "take" => shard
            .take(fields.number()?)
            .map_or(Printed::Answer(3, 0), |at| Printed::Answer(0, at)),
        "record" => {
            let (now, hash, settles_at) = (fields.number()?, fields.number()?, fields.number()?);
            shard.record(hash, settles_at, now, forget).into()
        }
        "sweep" => {
            shard.sweep(fields.number()?);
            Printed::Answer(0, 0)
        }
        "pay" => {
            let (hash, cost) = (fields.number()?, fields.small()?);
            Printed::Answer(if shard.pay_down(hash, cost) { 0 } else { 3 }, 0)
        }
        "idle" => Printed::Answer(0, shard.sweep_idle(fields.number()?) as u64),
        _ => shard.evict_one(fields.number()?, forget).into(),
    })
}

/// The shard that the next field names, and its number.
fn shard<'a>(limiter: &'a Limiter, fields: &mut Fields) -> Result<(usize, OneShard<'a>), String> {
    let index = usize::try_from(fields.number()?).map_err(|error| error.to_string())?;
    limiter
        .shard(index)
        .map(|shard| (index, shard))
        .ok_or_else(|| format!("no shard {index}"))
}

/// The fields of a line that are still to be read.
struct Fields<'a>(std::str::SplitAsciiWhitespace<'a>);

impl<'a> Fields<'a> {
    /// A line's name and its fields; `None` for an empty line or a comment.
    fn of(line: &'a str) -> Option<(&'a str, Self)> {
        let mut fields = line.split_ascii_whitespace();
        let name = fields.next().filter(|name| !name.starts_with('#'))?;
        Some((name, Self(fields)))
    }

    fn is_empty(&self) -> bool {
        self.0.clone().next().is_none()
    }

    fn end(&self) -> Result<(), String> {
        if self.is_empty() {
            Ok(())
        } else {
            Err("a field too many".into())
        }
    }

    fn next(&mut self) -> Result<&'a str, String> {
        self.0.next().ok_or_else(|| "a field is missing".into())
    }

    /// A 64-bit number.
    fn number(&mut self) -> Result<u64, String> {
        number(self.next()?)
    }

    /// A 32-bit number.
    fn small(&mut self) -> Result<u32, String> {
        narrow(self.number()?)
    }

    /// A number, or `-` for none.
    fn optional<N: TryFrom<u64>>(&mut self) -> Result<Option<N>, String> {
        match self.next()? {
            "-" => Ok(None),
            field => narrow(number(field)?).map(Some),
        }
    }

    /// A hash and a key.
    fn key(&mut self) -> Result<Key, String> {
        Ok(Key {
            hash: self.number()?,
            key: self.number()?,
        })
    }

    /// All the fields that are left.
    fn rest(&mut self) -> Result<Vec<u64>, String> {
        self.0.by_ref().map(number).collect()
    }
}

/// A decimal number of 64 bits.
fn number(field: &str) -> Result<u64, String> {
    if !field.bytes().all(|byte| byte.is_ascii_digit()) {
        return Err(format!("not a number: {field}"));
    }
    field.parse().map_err(|error| format!("{field}: {error}"))
}

/// A number within a narrower width.
fn narrow<N: TryFrom<u64>>(number: u64) -> Result<N, String> {
    N::try_from(number).map_err(|_| format!("too large: {number}"))
}

/// Words parted by spaces.
fn parted(words: &[u64]) -> String {
    words
        .iter()
        .map(u64::to_string)
        .collect::<Vec<_>>()
        .join(" ")
}
