//! The library as its users call it.

use oracle::refusals;
use oracle::{Key, Limiter, LoadError, Op, Outcome, Rate, Settings, Shape, WhenFull};

/// 2 tokens a second, at most 4.
const R: Rate = Rate {
    amount: 2,
    period: 1_000_000_000,
    burst: Some(4),
    initial: None,
};

fn settings(max_keys: u64, shards: u64) -> Settings {
    Settings {
        rate: Some(R),
        max_keys,
        shards,
        idle: None,
        when_full: WhenFull::RefuseNew,
    }
}

const fn key(key: u64) -> Key {
    Key { hash: key, key }
}

/// The code and number of each call, in a row.
macro_rules! answers {
    ($($call:expr),+ $(,)?) => { [$({ let answer = $call; (answer.code, answer.number) }),+] };
}

#[test]
fn answers_by_number() {
    let (limiter, accepted) = Limiter::set_up(settings(1, 1), 19);
    let got = answers![
        accepted,
        limiter.try_(0, key(7), 4),
        limiter.try_(0, key(8), 1),
        limiter.try_(0, key(9), 1),
        limiter.peek(0, key(7), 1),
        limiter.reserve(0, key(8), 4, 1_000_000_000),
        limiter.available(0, key(8)),
        limiter.refund(key(7), 1),
        limiter.remove(key(9)),
        limiter.len(),
    ];
    let wait = 500_000_000;
    assert_eq!(
        got,
        [
            (0, 0),
            (0, 0),
            (0, 0),
            (1, wait),
            (1, wait),
            (0, wait),
            (0, 0),
            (0, 0),
            (3, 0),
            (0, 1)
        ]
    );
    let words = [
        // The total.
        1,
        1,
        1,
        0,
        8,
        8,
        5_000_000_000,
        0,
        1,
        0,
        // No try of 8 was answered Retry.
        0,
        1,
        1,
        7,
        1_500_000_000,
        // The indexes: the slot of 8 is at an even place, the debt of 7 at an odd one.
        1,
        0,
        0,
        1,
    ];
    assert_eq!(limiter.words(), words);
    assert_eq!(answers![limiter.clear(), limiter.len()], [(0, 0), (0, 0)]);
    assert_eq!(limiter.words(), [0; 19]);
}

#[test]
fn loads_what_it_shows() {
    let (limiter, _accepted) = Limiter::new(settings(6, 2));
    for number in 0..20 {
        let hash = number << 38;
        let _answer = limiter.try_(number, Key { hash, key: number }, 1 + number as u32 % 4);
    }
    let words = limiter.words();
    let (other, _accepted) = Limiter::new(settings(6, 2));
    assert_eq!(other.load(&words), Ok(()));
    assert_eq!(other.words(), words);
    for number in 0..30 {
        let key = Key {
            hash: number << 38,
            key: number,
        };
        assert_eq!(other.try_(number, key, 2), limiter.try_(number, key, 2));
        assert_eq!(other.words(), limiter.words());
    }
}

#[test]
fn loads_only_what_the_rust_can_hold() {
    let (limiter, _accepted) = Limiter::new(settings(2, 1));
    let with = |changes: &[(usize, u64)]| {
        // The total, and the words of the one shard.
        let mut words = vec![0; 32];
        changes
            .iter()
            .for_each(|&(place, word)| words[1 + place] = word);
        words[0] = words[1];
        limiter.load(&words)
    };
    assert_eq!(limiter.load(&[0; 31]), Err(LoadError::Length));
    assert_eq!(with(&[(0, 3)]), Err(LoadError::Count));
    assert_eq!(with(&[(17, 3)]), Err(LoadError::Count));
    assert_eq!(with(&[(0, 2)]), Err(LoadError::SameIdentity));
    assert_eq!(with(&[(17, 2)]), Err(LoadError::SameDebt));
    // The first and the last word of the slot past the count: its hash and its count.
    assert_eq!(with(&[(0, 1), (10, 1)]), Err(LoadError::PastCount));
    assert_eq!(with(&[(0, 1), (16, 1)]), Err(LoadError::PastCount));
    let most = u64::MAX;
    assert_eq!(
        with(&[(0, 1), (7, 5), (1, most), (5, most), (9, most), (23, 1)]),
        Ok(())
    );
    // A mark of 5 is set; a shortfall and a count of any size are kept.
    let mut words = limiter.words();
    assert_eq!(words[..2], [1, 1]);
    assert_eq!((words[2], words[6], words[8]), (most, most, 1));
    assert_eq!(words[10], most);
    // Another total than the slots of all shards.
    for total in [0, 2, most] {
        words[0] = total;
        assert_eq!(limiter.load(&words), Err(LoadError::Count));
    }
}

#[test]
fn loads_only_sound_indexes() {
    let (limiter, _accepted) = Limiter::new(settings(2, 1));
    // Two slots, of hash 3 and 7, whose home is the last of four places from word 24 on; a debt of hash 6, at home at word 30.
    let with = |places: [u64; 4], debt: [u64; 4]| {
        let mut words = vec![0; 32];
        (words[0], words[1], words[4], words[11]) = (2, 2, 3, 7);
        (words[18], words[20]) = (1, 6);
        words[24..28].copy_from_slice(&places);
        words[28..32].copy_from_slice(&debt);
        limiter.load(&words)
    };
    let sound = [0, 0, 1, 0];
    assert_eq!(with([2, 0, 0, 1], sound), Ok(()));
    assert_eq!(with([1, 0, 0, 2], sound), Ok(()));
    // Not named, named twice, off its walk, no item, and the same in the index of the debts.
    for places in [[0, 0, 0, 1], [2, 1, 0, 1], [0, 2, 0, 1], [2, 3, 0, 1]] {
        assert_eq!(with(places, sound), Err(LoadError::Index));
    }
    for debt in [[0; 4], [0, 0, 0, 1], [0, 0, 1, 2]] {
        assert_eq!(with([2, 0, 0, 1], debt), Err(LoadError::Index));
    }
}

#[test]
fn refuses_counts_over_the_cap() {
    let settings = settings(4, 2);
    let shape = Shape::of(&settings);
    assert_eq!((shape.shards, shape.cap, shape.words()), (2, 2, 63));
    assert_eq!(shape.places(), 4);
    let second_shard = 1 << 40;
    for place in [32, 32 + 17] {
        let mut words = [0; 63];
        words[place] = 3;
        let words = words.as_slice();
        assert_eq!(refusals::set_up(&settings, words), None);
        assert_eq!(refusals::clear(&settings, words), None);
        assert_eq!(refusals::length(&settings, words), None);
        assert_eq!(refusals::try_(&settings, words, 0, u64::MAX), Some(6));
        assert_eq!(
            refusals::try_(&settings, words, second_shard, u64::MAX),
            Some(5)
        );
        assert_eq!(refusals::remove(&settings, words, 0), None);
        assert_eq!(refusals::turned_away(&settings, words, 0), None);
        assert_eq!(refusals::refund(&settings, words, second_shard), Some(5));
        assert_eq!(
            refusals::turned_away(&settings, words, second_shard),
            Some(5)
        );
    }
}

/// Request 10: with two slots in the second shard and room for four, a total of 2 to 4 is accepted; the first shard's keys and length take less, too.
#[test]
fn refuses_other_totals() {
    let settings = settings(4, 2);
    let second_shard = 1 << 40;
    for (total, own, other) in [
        (0, Some(5), None),
        (1, Some(5), None),
        (2, None, None),
        (4, None, None),
        (5, Some(5), Some(5)),
        (u64::MAX, Some(5), Some(5)),
    ] {
        let mut words = [0; 63];
        (words[0], words[32]) = (total, 2);
        let words = words.as_slice();
        assert_eq!(refusals::remove(&settings, words, second_shard), own);
        assert_eq!(refusals::try_(&settings, words, second_shard, 0), own);
        assert_eq!(refusals::remove(&settings, words, 0), other);
        assert_eq!(refusals::length(&settings, words), other);
        assert_eq!(refusals::clear(&settings, words), None);
    }
}

#[test]
fn parts_can_be_called_alone() {
    let (limiter, _accepted) = Limiter::new(settings(1, 1));
    let shard = limiter.shard(0).expect("there is one shard");
    assert_eq!(shard.run(&key(7), 0, Op::Try(4)), Outcome::Granted(0));
    assert_eq!(shard.run(&key(7), 0, Op::Reserve(4, 0)), Outcome::TooLong);
    assert_eq!(shard.evict_one(0, false), Ok(()));
    assert_eq!(
        (shard.debt_position(7), shard.position(&key(7))),
        (Some(0), None)
    );
    assert_eq!(shard.record(8, 9, 8, false), Err(1_999_999_992));
    assert_eq!(shard.record(8, 9, 8, true), Ok(()));
    assert_eq!((shard.take(7), shard.take(8)), (None, Some(9)));
    assert_eq!(shard.restored(0, 2_000_000_001), (5_000_000_000, 0));
    shard.insert(key(9), 5, 6, 7_000_000);
    assert!(shard.touch(0, 8_000_000));
    // The looks in recording left the cursor at 1; nothing was there to look at since.
    let before_the_indexes = [1, 1, 0, 9, 9, 5, 6, 1, 7, 0, 0, 1, 0, 0];
    let words = limiter.shard_words(0).expect("there is one shard");
    assert_eq!(words[..14], before_the_indexes);
    assert_eq!(words[14..], [0, 1, 0, 0]);
    assert_eq!(shard.remove_at(0), Some(key(9)));
}

/// 02, request 12: the debts of the Rust's ledger, filtered. Key 7 owes until 1 s, and key 8 has the slot.
#[test]
fn debts_of_a_shard() {
    const SECOND: u64 = 1_000_000_000;
    let (limiter, _) = Limiter::set_up(settings(1, 1), 19);
    let got = answers![limiter.try_(0, key(7), 2), limiter.try_(0, key(8), 1)];
    assert_eq!(got, [(0, 0), (0, 0)]);
    let list = |now, shard, lent| {
        let (answer, debts) = limiter.debts(now, shard, lent);
        ((answer.code, answer.number), debts)
    };
    assert_eq!(list(0, 0, 1), ((0, 1), vec![(7, SECOND)]));
    assert_eq!(list(SECOND - 1, 0, 9), ((0, 1), vec![(7, SECOND)]));
    assert_eq!(list(SECOND, 0, 0), ((0, 0), vec![]));
    assert_eq!(list(0, 0, 0), ((27, 0), vec![]));
    assert_eq!(list(0, 1, 0), ((26, 0), vec![]));
    assert_eq!(list((1 << 62) + 1, u64::MAX, 0), ((16, 0), vec![]));
    let (refused, _) = Limiter::set_up(settings(1, 1), 18);
    assert_eq!(refused.debts(u64::MAX, 1, 0).0.code, 15);
}

/// The debt count is refused as 5 after the shard's number and before the records. No slot count is looked at, nor the total.
#[test]
fn refusals_of_a_list() {
    let settings = settings(1, 2);
    let shape = Shape::of(&settings);
    let mut words = vec![u64::MAX; shape.words()];
    let list = |words: &[u64], shard| refusals::debts(&settings, words, 0, shard);
    assert_eq!([list(&words, 0), list(&words, 2)], [Some(5), Some(16)]);
    let ledger = oracle::layout::debts(shape.room()).count;
    words[shape.shard(1).start + ledger] = 1;
    assert_eq!([list(&words, 0), list(&words, 1)], [Some(5), None]);
    assert_eq!(refusals::records(1, 1), None);
    assert_eq!(refusals::records(1, 2), Some(17));
}
