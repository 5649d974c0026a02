//! The scenarios: settings, calls that bring a store into its state, and the calls that are timed.

mod classes;
mod debts;
mod hash;
pub mod hot;
pub mod known;
mod new_keys;
pub mod rows;
mod whole;

use published::Key;

pub use classes::Classes;
pub use debts::Listed;
pub use hash::Hash;

/// The settings of both sides. The period is a second. The Rust has no classes.
#[derive(Clone, Copy)]
pub struct Setup {
    pub amount: u32,
    pub burst: u32,
    pub max_keys: usize,
    pub shards: usize,
    pub idle: Option<u64>,
    pub forget_debt: bool,
    pub classes: Classes,
}

impl Setup {
    /// The keys that a shard has room for. The shards are a power of two.
    pub const fn cap(&self) -> usize {
        self.max_keys.div_ceil(self.shards)
    }
}

/// What a call asks.
#[derive(Clone, Copy)]
pub enum Op {
    SetUp,
    Try,
    /// A try through the last of the classes; of the Rust, which has none, a plain try.
    Through,
    /// A reservation with a wait of up to [`MAX_WAIT`].
    Reserve,
    Peek,
    Available,
    Refund,
    Remove,
    Length,
    /// The debts of the first shard; of the Rust, which has no such call, its ledger filtered.
    Debts,
}

/// A call. All the calls of a scenario are made up before any is timed.
#[derive(Clone, Copy)]
pub struct Call {
    pub op: Op,
    pub now: u64,
    pub key: Key,
    pub cost: u32,
}

/// A row of the table.
pub struct Scenario {
    pub name: String,
    pub setup: Setup,
    pub before: Vec<Call>,
    pub timed: Vec<Call>,
    /// The code that every timed call is answered with: 0 granted, known or done, 1 retry.
    pub code: u64,
}

const MS: u64 = 1_000_000;
/// The longest wait of a reservation, in nanoseconds.
pub const MAX_WAIT: u64 = 1_000 * MS;

/// 1,000 tokens a second, at most 100: a token comes back in a millisecond, a whole bucket in 100.
const BASE: Setup = Setup {
    amount: 1_000,
    burst: 100,
    max_keys: 1_000,
    shards: 64,
    idle: None,
    forget_debt: false,
    classes: Classes::NONE,
};

/// A try.
pub const fn try_(now: u64, key: Key, cost: u32) -> Call {
    let op = Op::Try;
    Call { op, now, key, cost }
}
