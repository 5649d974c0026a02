//! What the settings of a limiter with a rate say to a call with a key.

use oracle::{Rate, Settings, WhenFull};

use super::bucket::BucketConfig;

/// Nanoseconds in a millisecond.
const MS: u64 = 1_000_000;
/// The looks of an idle sweep.
pub const TTL_SWEEP: usize = 8;
/// The looks of a ledger's sweep, and of a search for a debt that can go.
pub const LEDGER_SCAN: usize = 8;
/// The looks of an eviction.
pub const CLOCK_SCAN: usize = 32;
/// The shortest wait, in nanoseconds, of a refusal for space.
pub const MIN_REFUSAL_WAIT: u64 = MS;

/// The rules that the settings choose.
#[derive(Clone, Copy)]
pub struct Policy {
    pub config: BucketConfig,
    /// The idle limit in ms, if slots are forgotten for being idle.
    pub idle_ttl_ms: Option<u64>,
    /// Whether a full ledger forgets a debt rather than turn a new key away.
    pub forget_debt: bool,
}

impl Policy {
    /// No slot is idle before it can be full, so the idle limit is at least the time to full; then up to whole ms, and 1 ms more.
    pub fn of(settings: &Settings, rate: &Rate) -> Self {
        let config = BucketConfig::of(rate);
        let limit = |idle: u64| idle.max(config.time_to_full()).div_ceil(MS) + 1;
        Self {
            config,
            idle_ttl_ms: settings.idle.map(limit),
            forget_debt: matches!(settings.when_full, WhenFull::ForgetDebt),
        }
    }
}

/// The idle stamp of a moment: whole milliseconds.
pub const fn millis(now: u64) -> u64 {
    now / MS
}
