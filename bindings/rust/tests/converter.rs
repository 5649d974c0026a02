//! The conversions, against the second account of them (oracle/compare/src/rules/converter.rs), which is written from the request and not from the library's
//! definitions.

#![cfg(feature = "alloc")]

use core::time::Duration;

#[path = "../../../oracle/compare/src/rules/converter.rs"]
mod account;

use account::{Shape, at};
use limiter::{Key, OwnedStore, Rate, Refusal, Settings, convert_back, convert_forth};

/// Numbers that look random; the same in each run.
struct Numbers(u64);

impl Numbers {
    fn below(&mut self, bound: u64) -> u64 {
        self.0 ^= self.0 << 13;
        self.0 ^= self.0 >> 7;
        self.0 ^= self.0 << 17;
        self.0 % bound
    }
}

/// The refusal of a number.
fn refusal(number: u64) -> Refusal {
    match number {
        account::MEMORY => Refusal::Memory,
        account::TWINS => Refusal::Twins,
        account::USED_PAST => Refusal::UsedPast,
        code => Refusal::Unknown { code },
    }
}

/// Both ways are as expected, and a refusal leaves the target as it was.
fn check_forth(settings: Settings, shape: Shape, source: &[u64]) -> Result<Vec<u64>, Refusal> {
    let mut target = vec![u64::MAX; shape.new_words()];
    let told = convert_forth(settings, source, &mut target);
    let expected = account::forth(shape, source).map_err(refusal);
    assert_eq!(told.err(), expected.as_ref().err().copied());
    match expected {
        Ok(words) => {
            assert_eq!(target, words);
            Ok(words)
        }
        Err(refusal) => {
            assert!(target.iter().all(|&word| word == u64::MAX));
            Err(refusal)
        }
    }
}

fn check_back(settings: Settings, shape: Shape, source: &[u64]) -> Result<Vec<u64>, Refusal> {
    let mut target = vec![u64::MAX; shape.old_words()];
    let told = convert_back(settings, source, &mut target);
    let expected = account::back(shape, source).map_err(refusal);
    assert_eq!(told.err(), expected.as_ref().err().copied());
    match expected {
        Ok(words) => {
            assert_eq!(target, words);
            Ok(words)
        }
        Err(refusal) => {
            assert!(target.iter().all(|&word| word == u64::MAX));
            Err(refusal)
        }
    }
}

fn settings(keys: usize, shards: usize) -> Settings {
    Settings::new(Rate::per_second(2).burst(3), keys as u64).shards(shards as u64)
}

/// A store that some calls have grown, and its words.
fn grown(keys: usize, shards: usize, modems: u64, calls: u64) -> OwnedStore {
    let mut numbers = Numbers(88_172_645_463_325_252);
    let mut store = OwnedStore::new(settings(keys, shards)).unwrap();
    for call in 0..calls {
        let now = Duration::from_millis(20 * call);
        let key = Key::fnv1a(numbers.below(modems));
        match numbers.below(8) {
            0 => drop(store.refund(key, 1).unwrap()),
            1 if numbers.below(4) == 0 => drop(store.remove(key).unwrap()),
            _ => drop(store.try_acquire(now, key, 2).unwrap()),
        }
    }
    store
}

#[test]
fn grown_stores_go_back_and_forth() {
    for (keys, shards, cap) in [(1, 1, 1), (8, 1, 8), (8, 4, 2), (100, 4, 25), (64, 64, 1)] {
        let shape = Shape { shards, cap };
        let store = grown(keys, shards, 3 * keys as u64, 40 * keys as u64);
        let settings = *store.settings();
        assert_eq!(settings.first_layout_words(), Ok(shape.old_words()));
        assert_eq!(settings.words(), Ok(shape.new_words()));
        let old = check_back(settings, shape, store.words()).unwrap();
        let new = check_forth(settings, shape, &old).unwrap();
        assert_eq!(check_back(settings, shape, &new), Ok(old));
        // The converted store answers as the grown one does.
        let mut converted = OwnedStore::resume(settings, new.into_boxed_slice()).unwrap();
        let mut store = store;
        assert_eq!(converted.len(), store.len());
        let mut numbers = Numbers(7);
        for call in 0..2_000 {
            let now = Duration::from_millis(20 * 40 * keys as u64 + 20 * call);
            let key = Key::fnv1a(numbers.below(3 * keys as u64));
            assert_eq!(converted.peek(now, key, 2), store.peek(now, key, 2));
            assert_eq!(converted.available(now, key), store.available(now, key));
            assert_eq!(
                converted.try_acquire(now, key, 2),
                store.try_acquire(now, key, 2)
            );
            if numbers.below(9) == 0 {
                assert_eq!(converted.refund(key, 1), store.refund(key, 1));
                assert_eq!(converted.remove(key), store.remove(key));
            }
        }
    }
}

/// Each word of a small store is damaged in several ways, forth and back.
#[test]
fn damage_of_each_word_is_told_as_expected() {
    let shape = Shape { shards: 2, cap: 3 };
    let store = grown(6, 2, 14, 300);
    let settings = *store.settings();
    let new = store.words().to_vec();
    let old = check_back(settings, shape, &new).unwrap();
    let mut seen = [0; 5];
    let mut count = |told: Result<Vec<u64>, Refusal>| {
        seen[match told {
            Ok(_) => 0,
            Err(Refusal::Memory) => 1,
            Err(Refusal::Twins) => 2,
            Err(Refusal::UsedPast) => 3,
            Err(_) => 4,
        }] += 1;
    };
    for at in 0..old.len() {
        for word in [0, 1, 2, 3, 4, u64::MAX, old[at] ^ 1]
            .into_iter()
            .chain(old.clone())
        {
            let mut damaged = old.clone();
            damaged[at] = word;
            count(check_forth(settings, shape, &damaged));
        }
    }
    for at in 0..new.len() {
        for word in [0, 1, 2, 3, 4, u64::MAX, new[at] ^ 1]
            .into_iter()
            .chain(new.clone())
        {
            let mut damaged = new.clone();
            damaged[at] = word;
            count(check_back(settings, shape, &damaged));
        }
    }
    assert!(
        seen[..4].iter().all(|&times| times > 0) && seen[4] == 0,
        "{seen:?}"
    );
}

/// Small words of any kind, with twins in the last shard among them.
#[test]
fn small_images_are_told_as_expected() {
    let shape = Shape { shards: 2, cap: 2 };
    let settings = settings(4, 2);
    let mut numbers = Numbers(3);
    let mut accepted = 0;
    for _ in 0..40_000 {
        let mut old: Vec<_> = (0..shape.old_words()).map(|_| numbers.below(3)).collect();
        for shard in 0..2 {
            let start = shard * (5 + 8 * shape.cap);
            let (slots, debts) = (old[start], old[start + 15]);
            for slot in at(slots)..2 {
                if numbers.below(8) > 0 {
                    old[start + 3 + 6 * slot..][..6].fill(0);
                }
            }
            for debt in at(debts)..2 {
                if numbers.below(8) > 0 {
                    old[start + 17 + 2 * debt..][..2].fill(0);
                }
            }
        }
        if let Ok(mut new) = check_forth(settings, shape, &old) {
            accepted += 1;
            assert_eq!(check_back(settings, shape, &new), Ok(old));
            let place = at(numbers.below(new.len() as u64));
            new[place] = numbers.below(4);
            let _ = check_back(settings, shape, &new);
        }
    }
    assert!(accepted > 1_000, "{accepted}");
}

#[test]
fn refusals_come_in_their_order() {
    let shape = Shape { shards: 1, cap: 2 };
    let good = settings(2, 1);
    let mut source = vec![0; shape.old_words()];
    let mut target = vec![5; shape.new_words()];
    let mut forth = |settings: Settings, source: &[u64], words: usize| {
        convert_forth(settings, source, &mut target[..words])
    };
    let new_words = shape.new_words();
    assert_eq!(forth(good, &source, new_words), Ok(()));
    // 19 in the slots, then 18 in the debts, then 5: each is told before what went wrong earlier here.
    source[3] = 1;
    assert_eq!(forth(good, &source, new_words), Err(Refusal::UsedPast));
    source[15] = 2;
    assert_eq!(forth(good, &source, new_words), Err(Refusal::Twins));
    source[0] = 3;
    assert_eq!(forth(good, &source, new_words), Err(Refusal::Memory));
    assert_eq!(forth(good, &source[1..], new_words), Err(Refusal::Memory));
    source.fill(0);
    assert_eq!(forth(good, &source, new_words - 1), Err(Refusal::Memory));
    // The rate and the sizes come before that; a closed limiter has no rate.
    let bad = Settings::new(Rate::per_second(0), 2);
    assert_eq!(forth(bad, &source, new_words), Err(Refusal::Amount));
    let many = Settings::new(Rate::per_second(2), 4_097);
    assert_eq!(forth(many, &source, new_words), Err(Refusal::Sizes));
    assert_eq!(many.first_layout_words(), Err(Refusal::Sizes));
    assert_eq!(forth(Settings::closed(2), &source, new_words), Ok(()));
    // 4,096 keys are taken.
    let most = Settings::new(Rate::per_second(2), 4_096);
    let source = vec![0; most.first_layout_words().unwrap()];
    let mut target = vec![5; most.words().unwrap()];
    assert_eq!(convert_forth(most, &source, &mut target), Ok(()));
    assert!(target.iter().all(|&word| word == 0));
}
