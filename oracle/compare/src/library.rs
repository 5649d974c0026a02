//! Our library, as limiter-sys declares it.

use limiter_sys::debts::{self, LimiterDebt};
use limiter_sys::{LimiterReply, LimiterSettings, classes, slices};
use oracle::{Answer, Rate, Settings, WhenFull};

use crate::call::Call;
use crate::given::Given;
use crate::lent::Lent;
use crate::random::Random;
use crate::records;
use crate::reply::Reply;

/// The settings as the library takes them.
pub type RawSettings = LimiterSettings;

/// These settings, without classes. Fields that are not read get any number, and a flag that is set any number but 0.
pub fn given(settings: &Settings, random: &mut Random) -> RawSettings {
    let mut flag = |set: bool| {
        if set {
            random.pick(&[1, 2, 0x100, u32::MAX])
        } else {
            0
        }
    };
    let (closed, has_idle, forget_debt) = (
        flag(settings.rate.is_none()),
        flag(settings.idle.is_some()),
        flag(matches!(settings.when_full, WhenFull::ForgetDebt)),
    );
    let rate = settings.rate.unwrap_or_else(|| any_rate(random));
    let mut optional = |value: Option<u32>| match value {
        Some(value) => (random.pick(&[1, 2, 1 << 31]), value),
        None => (0, random.pick(&[0, 1, 65_536, u32::MAX])),
    };
    let ((has_burst, burst), (has_initial, initial)) =
        (optional(rate.burst), optional(rate.initial));
    RawSettings {
        period: rate.period,
        max_keys: settings.max_keys,
        shards: settings.shards,
        idle: settings.idle.unwrap_or_else(|| random.word()),
        closed,
        amount: rate.amount,
        has_burst,
        burst,
        has_initial,
        initial,
        has_idle,
        forget_debt,
        classes: 0,
    }
}

/// What the record means.
pub fn meaning(raw: &RawSettings) -> Settings {
    let rate = Rate {
        amount: raw.amount,
        period: raw.period,
        burst: (raw.has_burst != 0).then_some(raw.burst),
        initial: (raw.has_initial != 0).then_some(raw.initial),
    };
    Settings {
        rate: (raw.closed == 0).then_some(rate),
        max_keys: raw.max_keys,
        shards: raw.shards,
        idle: (raw.has_idle != 0).then_some(raw.idle),
        when_full: if raw.forget_debt != 0 {
            WhenFull::ForgetDebt
        } else {
            WhenFull::RefuseNew
        },
    }
}

/// A rate that nothing reads.
fn any_rate(random: &mut Random) -> Rate {
    Rate {
        amount: random.pick(&[0, 1, u32::MAX]),
        period: random.pick(&[0, 1, u64::MAX]),
        burst: random.pick(&[None, Some(0), Some(u32::MAX)]),
        initial: None,
    }
}

/// The words that the library asks for.
pub fn words(s: &RawSettings) -> u64 {
    limiter_sys::limiter_words(*s)
}

/// More words than any table has that is lent here, and than any list of records.
const MOST_TABLE_WORDS: usize = 1_000;
const MOST_RECORD_WORDS: usize = 40_000;

/// What the library is lent beside the words of the store. Each ends where a page begins that nobody may touch.
pub struct Beside {
    table: Lent,
    records: Lent,
}

impl Beside {
    pub fn new() -> Self {
        Self {
            table: Lent::new(MOST_TABLE_WORDS),
            records: Lent::new(MOST_RECORD_WORDS),
        }
    }

    /// The records as the last call has left them.
    pub fn records(&mut self) -> &[u64] {
        assert!(self.records.guarded(), "only records are written");
        self.records.words()
    }
}

/// The library's answer to `call` on `words`. The table is only read.
pub fn ask(given: &Given, words: &mut [u64], call: &Call, beside: &mut Beside) -> Reply {
    beside.table.fill(&given.table);
    beside.records.fill(&records::before(call));
    let (s, table): (_, &[u64]) = (given.raw, beside.table.words());
    let reply = told(match *call {
        Call::SetUp => slices::set_up(s, words),
        Call::Try { now, key, cost } => slices::try_acquire(s, words, now, key.hash, key.key, cost),
        Call::Reserve {
            now,
            key,
            cost,
            max_wait,
        } => slices::reserve(s, words, now, key.hash, key.key, cost, max_wait),
        Call::Peek { now, key, cost } => slices::peek(s, words, now, key.hash, key.key, cost),
        Call::Available { now, key } => slices::available(s, words, now, key.hash, key.key),
        Call::Refund { key, cost } => slices::refund(s, words, key.hash, key.key, cost),
        Call::Remove { key } => slices::remove(s, words, key.hash, key.key),
        Call::Clear => slices::clear(s, words),
        Call::Length => slices::length(s, words),
        Call::TurnedAway { key } => slices::turned_away(s, words, key.hash, key.key),
        Call::ClassSetUp => classes::set_up(s, table, words),
        Call::ClassClear => classes::clear(s, table, words),
        Call::Through {
            now,
            key,
            class,
            cost,
        } => classes::try_acquire(s, table, words, now, key.hash, key.key, class, cost),
        Call::Debts { now, shard, .. } => {
            debts::list(s, words, now, shard, as_records(beside.records.words()))
        }
    });
    assert!(
        *table == *given.table && beside.table.guarded(),
        "the table is only read"
    );
    reply
}

/// These words, of which there is an even number, as records.
fn as_records(words: &mut [u64]) -> &mut [LimiterDebt] {
    let count = words.len() / (size_of::<LimiterDebt>() / size_of::<u64>());
    // SAFETY: a record is two words, aligned as a word, and any words are one. They are borrowed as long as the words are.
    unsafe { core::slice::from_raw_parts_mut(words.as_mut_ptr().cast(), count) }
}

/// What the library told. A code past 8 bits becomes 255, which is no code.
pub fn told(reply: LimiterReply) -> Reply {
    let answer = Answer {
        code: u8::try_from(reply.code).unwrap_or(u8::MAX),
        number: reply.number,
    };
    Reply {
        answer,
        moment: reply.moment,
    }
}
