//! Why a call was refused.

use oracle::Settings;
use oracle::refusals::{self, Memory};

use crate::call::Call;
use crate::given::Given;
use crate::rules::Shards;
use crate::rules::classes::{self, Refusal};

/// The reasons. Refusal 5 has five. Those from the twelfth on are of a table, in the order in which it is refused, and of the class that a try names. The last
/// two are of a list of debts.
pub const REASONS: [&str; 20] = [
    "1 amount",
    "2 period",
    "3 burst",
    "4 sizes",
    "5 length",
    "5 slots",
    "5 debts",
    "5 under",
    "5 over",
    "6 now",
    "7 wait",
    "14 many",
    "1 class",
    "2 class",
    "3 class",
    "14 parent",
    "15 chain",
    "14 named",
    "16 shard",
    "17 few",
];

/// The reasons before those of a table, before that of the class that is named, and before those of a list.
const BEFORE_TABLE: usize = 11;
const BEFORE_NAMED: usize = 17;
const BEFORE_LIST: usize = 18;

/// The length, which is the first reason for 5; a debt count over the cap; a total over the room, which is the last.
const LENGTH: usize = 4;
const DEBTS_OVER: usize = 6;
const TOTAL_OVER: usize = 8;
/// A moment that is too late.
const LATE: usize = 9;

/// The call that asks for the length, and the list of debts, by their places in `NAMES`.
const LENGTH_CALL: usize = 8;
const LIST_CALL: usize = 13;

/// How many of the reasons before those of a table a call can be refused for, by its place in `NAMES`.
const fn refusable(call: usize) -> usize {
    match call {
        0 | 7 | LENGTH_CALL | 10 | 11 | LIST_CALL => LENGTH + 1,
        5 | 6 | 9 => TOTAL_OVER + 1,
        2 => TOTAL_OVER + 3,
        _ => TOTAL_OVER + 2,
    }
}

/// Whether a call can be refused for a reason: the reasons come in order, but length looks at no shard and at the total alone, and a list of debts at the debt
/// count alone. Three calls are lent a table, and the last of them names a class.
pub const fn reason_applies(call: usize, reason: usize) -> bool {
    match (call, reason) {
        (LENGTH_CALL, TOTAL_OVER) | (LIST_CALL, DEBTS_OVER | LATE) => true,
        (_, ..BEFORE_TABLE) => reason < refusable(call),
        (_, BEFORE_TABLE..BEFORE_NAMED) => matches!(call, 10..=12),
        (_, BEFORE_NAMED..BEFORE_LIST) => call == 12,
        _ => call == LIST_CALL,
    }
}

/// Which reason it is that a call was refused with this number, its table left out.
pub fn reason(given: &Given, words: &[u64], call: &Call, number: u8) -> usize {
    match number {
        1..=4 => usize::from(number) - 1,
        5 => reason_of_five(given, words, call),
        16 => BEFORE_LIST,
        17 => BEFORE_LIST + 1,
        _ => usize::from(number) + 3,
    }
}

/// Which reason it is that a table was refused, or the class that a try names.
pub const fn table_reason(refusal: Refusal) -> usize {
    BEFORE_TABLE
        + match refusal {
            Refusal::TooMany => 0,
            Refusal::Amount => 1,
            Refusal::Period => 2,
            Refusal::Burst => 3,
            Refusal::Parent => 4,
            Refusal::Chain => 5,
            Refusal::Named => 6,
        }
}

/// Whether the words are as many as the settings and the classes need.
fn is_long_enough(given: &Given, words: &[u64], call: &Call) -> bool {
    let classes = classes::counted(given, call);
    Shards { words, classes }.length() == given.shape().words() as u64
}

/// Which of the five reasons for 5 it is.
fn reason_of_five(given: &Given, words: &[u64], call: &Call) -> usize {
    let shape = given.shape();
    if !is_long_enough(given, words, call) {
        return LENGTH;
    }
    if matches!(call, Call::Debts { .. }) {
        return DEBTS_OVER;
    }
    let Some(key) = call.key() else {
        return TOTAL_OVER;
    };
    let shard = shape.shard_of(key.hash);
    let slots = words.slot_count(shape, shard);
    if slots > shape.cap {
        5
    } else if words.debt_count(shape, shard) > shape.cap {
        DEBTS_OVER
    } else if words.total() < slots {
        7
    } else {
        TOTAL_OVER
    }
}

/// How many of amount, period, burst, sizes, length, counts, moment, longest wait, table and list are wrong.
pub fn wrongs(given: &Given, words: &[u64], call: &Call) -> u32 {
    let settings = &given.settings();
    let tokens = 1..=refusals::MOST_TOKENS;
    let rate = settings.rate.map_or([false; 3], |rate| {
        [
            !tokens.contains(&rate.amount),
            !(1..=refusals::LONGEST_PERIOD).contains(&rate.period),
            !tokens.contains(&rate.burst.unwrap_or(rate.amount)),
        ]
    });
    let sizes = settings.max_keys > refusals::MOST_KEYS || settings.shards > refusals::MOST_SHARDS;
    let length = sizes || !is_long_enough(given, words, call);
    let classes = classes::counted(given, call);
    let memory = Shards { words, classes };
    let counts = !length
        && call
            .key()
            .is_some_and(|key| refusals::remove(&rateless(settings), &memory, key.hash).is_some());
    let (now, wait) = match *call {
        Call::Reserve { now, max_wait, .. } => (now, max_wait),
        Call::Try { now, .. }
        | Call::Through { now, .. }
        | Call::Peek { now, .. }
        | Call::Debts { now, .. }
        | Call::Available { now, .. } => (now, 0),
        _ => (0, 0),
    };
    let rest = [
        sizes,
        length,
        counts,
        now > refusals::LATEST_MOMENT,
        wait > refusals::LONGEST_WAIT,
        classes::refusal(given, call).is_some(),
        !length && is_wrong_list(&rateless(settings), &memory, call),
    ];
    rate.into_iter().chain(rest).map(u32::from).sum()
}

/// Whether a list of debts is one of no shard, or of a shard whose debt count is over the cap.
fn is_wrong_list(settings: &Settings, memory: &Shards, call: &Call) -> bool {
    match *call {
        Call::Debts { shard, .. } => refusals::debts(settings, memory, 0, shard).is_some(),
        _ => false,
    }
}

/// The same settings without a rate, so that only sizes and memory can be refused.
fn rateless(settings: &Settings) -> Settings {
    Settings {
        rate: None,
        ..*settings
    }
}
