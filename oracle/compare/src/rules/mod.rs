//! The rules on lent words, written from 01 (and docs/DECISIONS.md, "How 01 is read") and from the requests of 02 that are landed: a third
//! account beside the library and the Rust. It says which branch each call takes, what is right on words that the Rust cannot hold, and what
//! the Rust has no answer to. It shares nothing with the Rust but the numbered refusals, the layout of the words, and its names.
//!
//! Of 02 it has request 1, the moment: now + the wait of every grant and every retry (`Wait::moment`); request 3, the indexes by which slots and
//! debts are found (`index`); request 4, calls by hardware address (`by_address`); request 5, a clock set back (`Bucket::wait`); request 8, the count of
//! tries that a slot's bucket turned away (`turned_away`); request 9, the limits above the modem (`classes`); request 10, the total of
//! slots before the first shard (`perkey::answer`, `whole::answer`); request 12, the list of debts (`debts`); and request 14, the conversions (`converter`).
//!
//! The layers, from below: `bucket` (numbers), `index` and `rows` (items in words), `turned_away` and `entry` (a slot), `ledger` (the debts), `shard_map` and
//! `evict_one` (a shard), `restore_debt`, `store` (what a key holds), `perkey` (the calls); beside them `classes` and `debts`. `settings` and `decision` are
//! what goes in and what comes out.

mod bucket;
pub mod by_address;
pub mod classes;
pub mod converter;
pub mod debts;
mod decision;
mod entry;
mod evict_one;
mod index;
mod ledger;
mod perkey;
mod restore_debt;
mod rows;
mod settings;
mod shard_map;
mod store;
mod turned_away;
mod whole;

use oracle::Shape;
use oracle::refusals::{self, Memory};

use crate::branches::Hits;
use crate::call::Call;
use crate::given::Given;
use crate::reply::Reply;
use debts::Asked;

/// What `call` answers, and what it makes of `words`: the refusals come before all else, those of a table after all others.
pub fn answer(given: &Given, words: &mut [u64], call: &Call, hits: &mut Hits) -> Reply {
    hits.call(call);
    if let Some(number) = refusal(given, words, call) {
        hits.refused(given, words, call, number);
        return decision::refused(number);
    }
    if let Some(refusal) = classes::refusal(given, call) {
        hits.table_refused(call, refusal);
        return decision::refused(refusal.number());
    }
    if let Call::Debts {
        now,
        shard,
        records,
    } = *call
    {
        return debts::answer(given, words, Asked { now, shard }, records, hits);
    }
    match call.key() {
        Some(key) => perkey::answer(given, words, call, key, hits),
        None => whole::answer(given, words, call, hits),
    }
}

/// Whether the Rust, which has no classes, answers this call on these words as the rules do. It does not where the table is refused, nor where a class may
/// decide a try.
pub fn is_the_rusts(given: &Given, words: &[u64], call: &Call) -> bool {
    if refusal(given, words, call).is_some() {
        return true;
    }
    classes::refusal(given, call).is_none() && perkey::is_passed(given, words, call)
}

/// A memory but for the words of so many classes at its end.
pub struct Shards<'a> {
    pub words: &'a [u64],
    pub classes: u64,
}

impl Memory for Shards<'_> {
    /// A memory that has fewer words than the classes take has no right length.
    fn length(&self) -> u64 {
        let buckets = u128::from(self.classes) * classes::BUCKET_WORDS as u128;
        let rest = (self.words.len() as u128).checked_sub(buckets);
        rest.map_or(u64::MAX, |rest| rest as u64)
    }

    fn total(&self) -> u64 {
        self.words.total()
    }

    fn slot_count(&self, shape: Shape, shard: u64) -> u64 {
        self.words.slot_count(shape, shard)
    }

    fn debt_count(&self, shape: Shape, shard: u64) -> u64 {
        self.words.debt_count(shape, shard)
    }
}

/// The refusal of `call` by number, its table left out.
fn refusal(given: &Given, words: &[u64], call: &Call) -> Option<u8> {
    let settings = &given.settings();
    let classes = classes::counted(given, call);
    let memory = &Shards { words, classes };
    match *call {
        Call::SetUp | Call::ClassSetUp => refusals::set_up(settings, memory),
        Call::Try { now, key, .. } | Call::Through { now, key, .. } => {
            refusals::try_(settings, memory, key.hash, now)
        }
        Call::Reserve {
            now, key, max_wait, ..
        } => refusals::reserve(settings, memory, key.hash, now, max_wait),
        Call::Peek { now, key, .. } => refusals::peek(settings, memory, key.hash, now),
        Call::Available { now, key } => refusals::available(settings, memory, key.hash, now),
        Call::Refund { key, .. } => refusals::refund(settings, memory, key.hash),
        Call::Remove { key } => refusals::remove(settings, memory, key.hash),
        Call::Clear | Call::ClassClear => refusals::clear(settings, memory),
        Call::Length => refusals::length(settings, memory),
        Call::TurnedAway { key } => refusals::turned_away(settings, memory, key.hash),
        Call::Debts {
            now,
            shard,
            records,
        } => refusals::debts(settings, memory, now, shard).or_else(|| {
            let listed = Asked { now, shard }.listed(given, words);
            refusals::records(records, listed.count())
        }),
    }
}
