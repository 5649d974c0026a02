//! The records that are lent for a list of debts: two words each, the hash and the settling moment.

use oracle::Limiter;

use crate::call::Call;

/// The words of a record.
const RECORD_WORDS: usize = 2;

/// The records of a call before it is made: words that no debt has, another one at each place. Only the list of debts is lent any.
pub fn before(call: &Call) -> Vec<u64> {
    let lent = match *call {
        Call::Debts { records, .. } => RECORD_WORDS * records,
        _ => 0,
    };
    let word = |at: usize| 0x7265_636f_7264_0000 ^ (at as u64).rotate_right(20);
    (0..lent).map(word).collect()
}

/// The records with these debts written over the first of them.
pub fn written(mut records: Vec<u64>, debts: impl IntoIterator<Item = (u64, u64)>) -> Vec<u64> {
    let places = records.chunks_exact_mut(RECORD_WORDS);
    for (place, (hash, settles_at)) in places.zip(debts) {
        place.copy_from_slice(&[hash, settles_at]);
    }
    records
}

/// The records after a call of the Rust: the debts of its ledger, filtered.
pub fn of_the_rust(call: &Call, limiter: &Limiter) -> Vec<u64> {
    let listed = match *call {
        Call::Debts {
            now,
            shard,
            records,
        } => limiter.debts(now, shard, records).1,
        _ => Vec::new(),
    };
    written(before(call), listed)
}
