//! The list of debts.

use super::rows::Row;
use super::{BASE, Call, Hash, Op, Scenario, Setup, try_};

/// Which of the debts are listed.
#[derive(Clone, Copy)]
pub enum Listed {
    /// All: none has settled.
    All,
    /// None: all have settled.
    None,
}

/// A moment at which every debt has settled.
const LATE: u64 = 1 << 61;

/// The debts of the first shard, again and again. Its ledger is full: more modems came than there is room for, each emptied its bucket, and a bucket takes
/// 1,000 seconds to be full.
pub fn debts(calls: usize, row: &Row, listed: Listed) -> Scenario {
    let setup = Setup {
        amount: 1,
        burst: 1_000,
        ..row.setup(BASE)
    };
    let came = 4 * setup.max_keys as u64;
    let now = match listed {
        Listed::All => 0,
        Listed::None => LATE,
    };
    let call = Call {
        op: Op::Debts,
        ..try_(now, Hash::Fnv1a.key(0), 0)
    };
    Scenario {
        name: String::new(),
        setup,
        before: (0..came).map(|i| try_(0, row.hash.key(i), 1_000)).collect(),
        timed: vec![call; calls / 100],
        code: 0,
    }
}
