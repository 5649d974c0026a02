//! A trace for the oracle program.

use oracle::{Limiter, Settings, WhenFull};

use crate::given::Given;

/// The first lines of a trace for the oracle program: set-up on so many words of shards, and loading. Words that the Rust cannot hold stand in a
/// comment, and so do the table and the words of classes.
pub fn trace_head(given: &Given, len: usize, loaded: Option<&[u64]>) -> String {
    let settings = &given.settings();
    let mut lines = vec![set_line(settings, len)];
    if !given.table.is_empty() {
        lines.push(format!("# table {}", spaced(&given.table)));
    }
    let (limiter, accepted) = Limiter::set_up(*settings, len as u64);
    let shards = |words: &[u64]| accepted.code == 0 && words.len() >= given.shape().words();
    match loaded {
        Some(words) if shards(words) && limiter.load(&words[..given.shape().words()]).is_ok() => {
            let shape = given.shape();
            lines.push(format!("# classes {}", spaced(&words[shape.words()..])));
            let rows = (0..shape.shards).map(|shard| (shard, &words[shape.shard(shard)]));
            let held = rows.filter(|(_, row)| row.iter().any(|&word| word != 0));
            lines.extend(held.map(|(shard, row)| format!("load {shard} {}", spaced(row))));
        }
        Some(words) => lines.push(format!("# words {}", spaced(words))),
        None => {}
    }
    lines.join("\n") + "\n"
}

fn spaced(words: &[u64]) -> String {
    let words: Vec<String> = words.iter().map(u64::to_string).collect();
    words.join(" ")
}

fn set_line(settings: &Settings, len: usize) -> String {
    let optional = |value: Option<u64>| value.map_or("-".to_string(), |value| value.to_string());
    let when_full = u8::from(matches!(settings.when_full, WhenFull::ForgetDebt));
    let rate = settings.rate.map_or("- 0 - -".to_string(), |rate| {
        let [burst, initial] =
            [rate.burst, rate.initial].map(|value| optional(value.map(u64::from)));
        format!("{} {} {burst} {initial}", rate.amount, rate.period)
    });
    let idle = optional(settings.idle);
    format!(
        "set {rate} {} {} {idle} {when_full} {len}",
        settings.max_keys, settings.shards
    )
}
