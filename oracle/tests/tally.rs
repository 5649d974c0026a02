//! The count of tries that a key's bucket answered Retry: 02, request 8.

use oracle::{Key, Limiter, Rate, Settings, WhenFull};

/// The largest count.
const MOST: u64 = (1 << 32) - 1;
/// What a token takes.
const TOKEN: u64 = 500_000_000;

/// A limiter of one shard: 2 tokens a second, at most 4.
fn limiter(max_keys: u64) -> Limiter {
    let rate = Rate {
        amount: 2,
        period: 1_000_000_000,
        burst: Some(4),
        initial: None,
    };
    set_up(max_keys, Some(rate))
}

fn set_up(max_keys: u64, rate: Option<Rate>) -> Limiter {
    let settings = Settings {
        rate,
        max_keys,
        shards: 1,
        idle: None,
        when_full: WhenFull::RefuseNew,
    };
    let (limiter, accepted) = Limiter::new(settings);
    assert_eq!(accepted.code, 0);
    limiter
}

const fn key(key: u64) -> Key {
    Key { hash: key, key }
}

/// The code of a try.
fn try_(limiter: &Limiter, now: u64, number: u64, cost: u32) -> u8 {
    limiter.try_(now, key(number), cost).code
}

/// The count as the look gives it.
fn count(limiter: &Limiter, number: u64) -> u64 {
    let answer = limiter.turned_away(key(number));
    assert_eq!(answer.code, 0);
    answer.number
}

/// The hash and the count of each slot, in the order of the slots.
fn counts(limiter: &Limiter) -> Vec<(u64, u64)> {
    let words = limiter.shard_words(0).expect("there is a shard");
    let slots = words[3..].chunks(7).take(words[0] as usize);
    slots.map(|slot| (slot[0], slot[6])).collect()
}

/// One shard with two empty buckets, of the keys 7 and 8, that have these counts.
fn loaded(counts: [u64; 2]) -> Vec<u64> {
    let mut words = vec![0; 31];
    words[0] = 2;
    words[3..10].copy_from_slice(&[7, 7, 4_000_000_000, 0, 0, 0, counts[0]]);
    words[10..17].copy_from_slice(&[8, 8, 4_000_000_000, 0, 0, 0, counts[1]]);
    // Hash 7 is at home at the last of four places, hash 8 at the first.
    (words[26], words[23]) = (1, 2);
    words
}

/// The words of a memory of such shards: the total comes first.
fn memory<const SHARDS: usize>(shards: [Vec<u64>; SHARDS]) -> Vec<u64> {
    let total = shards.iter().map(|words| words[0]).sum();
    [vec![total], shards.concat()].concat()
}

#[test]
fn only_a_retry_of_the_bucket_counts() {
    let limiter = limiter(2);
    assert_eq!(count(&limiter, 7), 0);
    assert_eq!(try_(&limiter, 0, 7, 4), 0);
    assert_eq!(count(&limiter, 7), 0);
    assert_eq!(try_(&limiter, 0, 7, 1), 1);
    assert_eq!(count(&limiter, 7), 1);
    // A peek, a reservation that gets none, an impossible cost, a cost of 0 and a refused call.
    assert_eq!(limiter.peek(0, key(7), 1).code, 1);
    assert_eq!(limiter.reserve(0, key(7), 1, TOKEN - 1).code, 3);
    assert_eq!(try_(&limiter, 0, 7, 5), 2);
    assert_eq!(try_(&limiter, 0, 7, 0), 0);
    assert_eq!(try_(&limiter, u64::MAX, 7, 1), 16);
    assert_eq!(counts(&limiter), [(7, 1)]);
    assert_eq!(try_(&limiter, TOKEN - 1, 7, 1), 1);
    // Grants leave the count: of a try, and of a reservation that waits.
    assert_eq!(try_(&limiter, TOKEN, 7, 1), 0);
    assert_eq!(limiter.reserve(TOKEN, key(7), 1, TOKEN).code, 0);
    assert_eq!(limiter.refund(key(7), 4).code, 0);
    assert_eq!(counts(&limiter), [(7, 2)]);
    assert_eq!(count(&limiter, 7), 2);
}

#[test]
fn a_retry_for_space_counts_nothing() {
    let limiter = limiter(1);
    assert_eq!(try_(&limiter, 0, 7, 4), 0);
    assert_eq!(try_(&limiter, 0, 8, 4), 0);
    assert_eq!(try_(&limiter, 0, 9, 1), 1);
    assert_eq!((count(&limiter, 9), counts(&limiter)), (0, vec![(8, 0)]));
    // It was not kept for later either: 9 comes in once 8 is full.
    assert_eq!(try_(&limiter, 4 * TOKEN, 9, 1), 0);
    assert_eq!(count(&limiter, 9), 0);
}

#[test]
fn the_retry_that_appends_counts_as_one() {
    let limiter = limiter(1);
    assert_eq!(try_(&limiter, 0, 7, 4), 0);
    assert_eq!(try_(&limiter, 0, 7, 1), 1);
    assert_eq!(try_(&limiter, 0, 7, 1), 1);
    assert_eq!(count(&limiter, 7), 2);
    // 7 leaves its slot for a debt, and the count goes with the slot.
    assert_eq!(try_(&limiter, 0, 8, 4), 0);
    assert_eq!(count(&limiter, 7), 0);
    // 7 comes back in debt: the same call appends it and is denied.
    assert_eq!(try_(&limiter, 0, 7, 1), 1);
    assert_eq!((count(&limiter, 7), counts(&limiter)), (1, vec![(7, 1)]));
    // 8 comes back by a reservation, which counts nothing, not even where it appends and gets none.
    assert_eq!(limiter.reserve(0, key(8), 1, 0).code, 3);
    assert_eq!(counts(&limiter), [(8, 0)]);
}

#[test]
fn it_moves_with_its_slot() {
    let limiter = limiter(2);
    assert_eq!(try_(&limiter, 0, 7, 4), 0);
    assert_eq!(try_(&limiter, 0, 8, 4), 0);
    assert_eq!(try_(&limiter, 0, 8, 1), 1);
    assert_eq!(counts(&limiter), [(7, 0), (8, 1)]);
    assert_eq!(limiter.remove(key(7)).code, 0);
    assert_eq!(counts(&limiter), [(8, 1)]);
    assert_eq!((count(&limiter, 7), count(&limiter, 8)), (0, 1));
}

#[test]
fn it_is_forgotten_with_its_slot() {
    let limiter = limiter(2);
    for _ in 0..2 {
        assert_eq!(try_(&limiter, 0, 7, 4), 0);
        assert_eq!(count(&limiter, 7), 0);
        assert_eq!(try_(&limiter, 0, 7, 1), 1);
        assert_eq!(count(&limiter, 7), 1);
        assert_eq!(limiter.remove(key(7)).code, 0);
        assert_eq!(count(&limiter, 7), 0);
    }
    assert_eq!(try_(&limiter, 0, 7, 4), 0);
    assert_eq!(try_(&limiter, 0, 7, 1), 1);
    assert_eq!(limiter.clear().code, 0);
    assert_eq!(try_(&limiter, 0, 7, 4), 0);
    assert_eq!(counts(&limiter), [(7, 0)]);
}

#[test]
fn keys_of_one_hash_have_counts_of_their_own() {
    let limiter = limiter(2);
    let other = Key { hash: 7, key: 8 };
    assert_eq!(try_(&limiter, 0, 7, 4), 0);
    assert_eq!(limiter.try_(0, other, 4).code, 0);
    assert_eq!(limiter.try_(0, other, 1).code, 1);
    assert_eq!(
        (count(&limiter, 7), limiter.turned_away(other).number),
        (0, 1)
    );
}

#[test]
fn it_stops_at_the_most() {
    let limiter = limiter(2);
    assert_eq!(limiter.load(&memory([loaded([MOST - 1, MOST])])), Ok(()));
    assert_eq!(counts(&limiter), [(7, MOST - 1), (8, MOST)]);
    for _ in 0..2 {
        assert_eq!(try_(&limiter, 0, 7, 1), 1);
        assert_eq!(try_(&limiter, 0, 8, 1), 1);
        assert_eq!(counts(&limiter), [(7, MOST), (8, MOST)]);
    }
}

#[test]
fn a_larger_word_reads_as_the_most() {
    let limiter = limiter(2);
    let shard = loaded([MOST + 1, u64::MAX]);
    let words = memory([shard.clone()]);
    assert_eq!(limiter.load(&words), Ok(()));
    assert_eq!(limiter.words(), words);
    assert_eq!((count(&limiter, 7), count(&limiter, 8)), (MOST, MOST));
    // A look, a reservation and a grant leave the word; the next retry stores the most.
    assert_eq!(limiter.reserve(0, key(8), 1, 0).code, 3);
    assert_eq!(try_(&limiter, TOKEN, 8, 1), 0);
    assert_eq!(counts(&limiter), [(7, MOST + 1), (8, u64::MAX)]);
    assert_eq!(try_(&limiter, TOKEN, 8, 1), 1);
    assert_eq!(counts(&limiter), [(7, MOST + 1), (8, MOST)]);
    // Words that are loaded again come back.
    assert_eq!(limiter.load_shard(0, &shard), Ok(()));
    assert_eq!(limiter.words(), words);
}

/// Loaded words may hold a key in a shard that is not its own, where no call finds it. Each slot keeps its word.
#[test]
fn each_shard_has_counts_of_its_own() {
    let settings = Settings {
        max_keys: 4,
        shards: 2,
        ..*limiter(2).settings()
    };
    let (limiter, _accepted) = Limiter::new(settings);
    let words = memory([loaded([3, 4]), loaded([5, 6])]);
    assert_eq!(limiter.load(&words), Ok(()));
    assert_eq!(limiter.words(), words);
    assert_eq!((count(&limiter, 7), count(&limiter, 8)), (3, 4));
    assert_eq!(limiter.remove(key(7)).code, 0);
    assert_eq!(limiter.words()[32..], words[32..]);
}

#[test]
fn it_is_refused_as_remove_is() {
    let closed = set_up(2, None);
    assert_eq!(closed.load(&memory([loaded([3, u64::MAX])])), Ok(()));
    assert_eq!((count(&closed, 7), count(&closed, 8)), (3, MOST));
    assert_eq!(count(&closed, 9), 0);
    let settings = *closed.settings();
    let sizes = Settings {
        max_keys: 65_537,
        ..settings
    };
    let (refused, _) = Limiter::new(sizes);
    assert_eq!(refused.turned_away(key(7)).code, 14);
    let (refused, _) = Limiter::set_up(settings, 31);
    assert_eq!(refused.turned_away(key(7)).code, 15);
}
