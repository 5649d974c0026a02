//! The store as a server uses it. The numbers are edges of document 01.

use core::time::Duration;
use std::collections::HashSet;
use std::sync::RwLock;

use limiter::{Decision, Key, LentStore, Look, Rate, Refusal, Settings, Store, WhenFull};

const SECOND: Duration = Duration::from_secs(1);
const HALF: Duration = Duration::from_millis(500);
const ZERO: Duration = Duration::ZERO;

/// The words of a store for one key.
const ONE: usize = 19;

/// 2 tokens a second, at most 4.
const R: Rate = Rate::per_second(2).burst(4);

/// The keys that are asked for.
fn modems<const N: usize>(keys: [u64; N]) -> [Key; N] {
    keys.map(Key::fnv1a)
}

/// A store on words that held something else before: set-up clears them.
fn store(settings: Settings) -> Store<Vec<u64>> {
    let words = settings.words().expect("sizes within bounds");
    Store::set_up(settings, vec![7; words]).expect("settings within bounds")
}

fn granted(answer: Result<Decision, Refusal>) -> bool {
    answer.expect("not refused").is_acquired()
}

fn retry(answer: Result<Decision, Refusal>) -> Option<Duration> {
    answer.expect("not refused").retry_after()
}

/// The wait and the moment of a decision.
fn told(answer: Result<Decision, Refusal>) -> (Option<Duration>, Option<Duration>) {
    let decision = answer.expect("not refused");
    (decision.retry_after(), decision.moment())
}

#[test]
fn words_to_lend() {
    assert_eq!(Settings::new(R, 0).shards(0).words(), Ok(ONE));
    assert_eq!(Settings::new(R, 5).shards(3).words(), Ok(125));
    assert_eq!(Settings::new(R, 65_537).words(), Err(Refusal::Sizes));
    let many_shards = Settings::new(R, 1).shards(65);
    assert_eq!(many_shards.words(), Err(Refusal::Sizes));
    // The rate is not looked at.
    let no_rate = Settings::new(Rate::per_second(0), 5).shards(3);
    assert_eq!(no_rate.words(), Ok(125));
    // Every size that has words is accepted with these, and with no others.
    for (keys, shards) in [
        (0, 0),
        (1, 1),
        (100, 3),
        (4_097, 1),
        (65_536, 0),
        (65_536, 64),
    ] {
        let settings = Settings::new(R, keys).shards(shards);
        let words = settings.words().expect("sizes within bounds");
        assert!(Store::set_up(settings, vec![0; words]).is_ok());
        let other = Store::set_up(settings, vec![0; words + 1]);
        assert_eq!(other.expect_err("refused"), Refusal::Memory);
    }
}

#[test]
fn many_keys_raise_the_shards() {
    let words = |shards: usize, places: usize| Ok(1 + shards * (5 + 13 * places));
    let asked = |keys, shards| Settings::new(R, keys).shards(shards).words();
    assert_eq!(asked(16_384, 0), words(1, 16_384));
    assert_eq!(asked(16_385, 1), words(2, 8_193));
    assert_eq!(asked(16_385, 3), words(4, 4_097));
    assert_eq!(asked(32_769, 0), words(4, 8_193));
    assert_eq!(asked(65_536, 1), words(4, 16_384));
    assert_eq!(asked(65_536, 64), words(64, 1_024));
    // The number asked for is refused, not the one it is raised to.
    assert_eq!(asked(65_536, 65), Err(Refusal::Sizes));
}

#[test]
fn the_hash_is_fnv1a() {
    // From the FNV authors' test suite: the eight bytes "chongo w".
    let published = Key::fnv1a(u64::from_le_bytes(*b"chongo w"));
    assert_eq!(published.hash, 0xd1ed_d10b_5073_44d0);
    // As crates/test_fnv_vectors has them.
    let vectors = [
        (0, 12_161_962_213_042_174_405),
        (1, 9_929_646_806_074_584_996),
        (7, 5_465_015_992_139_406_178),
        (8, 11_573_741_395_073_338_061),
        (9, 9_341_425_988_105_748_652),
        (u64::MAX, 10_157_053_723_145_373_757),
    ];
    for (key, hash) in vectors {
        assert_eq!(Key::fnv1a(key), Key::new(hash, key));
    }
}

#[test]
fn a_modem_waits_and_reserves() {
    let mut store = store(Settings::new(R, 2));
    let [seven, eight, nine] = modems([7, 8, 9]);
    for (modem, cost) in [(seven, 4), (eight, 1), (nine, 1)] {
        assert!(granted(store.try_acquire(ZERO, modem, cost)));
    }
    assert_eq!(retry(store.try_acquire(HALF, seven, 3)), Some(SECOND));
    let never = store.try_acquire(HALF, seven, 5).expect("not refused");
    assert!(never.is_impossible() && never.retry_after().is_none());
    let reserved = store.reserve(HALF, seven, 3, SECOND).expect("not refused");
    assert_eq!(reserved.expect("reserved").wait, SECOND);
    assert_eq!(store.reserve(HALF, seven, 3, SECOND), Ok(None));
    assert_eq!(retry(store.peek(HALF, seven, 1)), Some(SECOND + HALF));
    assert_eq!(store.available(HALF, seven), Ok(0));
    assert_eq!(store.len(), Ok(2));
}

#[test]
fn a_grant_tells_its_moment() {
    let mut store = store(Settings::new(R, 2));
    let ([seven], now) = (modems([7]), 5 * SECOND);
    // So do a peek, and a cost of 0.
    for cost in [0, 4] {
        assert_eq!(told(store.peek(now, seven, cost)), (None, Some(now)));
    }
    for cost in [0, 4, 0] {
        assert_eq!(told(store.try_acquire(now, seven, cost)), (None, Some(now)));
    }
    let mut reserved = |cost, max_wait| {
        let reserved = store.reserve(now, seven, cost, max_wait);
        let reserved = reserved.expect("not refused")?;
        Some((reserved.wait, reserved.moment))
    };
    assert_eq!(reserved(0, ZERO), Some((ZERO, now)));
    assert_eq!(reserved(2, SECOND), Some((SECOND, now + SECOND)));
    assert_eq!(reserved(2, SECOND), None);
}

#[test]
fn a_retry_tells_its_moment() {
    let mut store = store(Settings::new(R, 2));
    let ([seven], now) = (modems([7]), 5 * SECOND);
    assert!(granted(store.try_acquire(now, seven, 4)));
    let later = (Some(HALF), Some(now + HALF));
    assert_eq!(told(store.try_acquire(now, seven, 1)), later);
    assert_eq!(told(store.peek(now, seven, 1)), later);
    assert_eq!(told(store.try_acquire(now, seven, 5)), (None, None));
    assert_eq!(told(store.peek(now, seven, 5)), (None, None));
    // At that moment it is granted, and not a nanosecond before.
    let before = now + Duration::from_nanos(499_999_999);
    assert!(!granted(store.peek(before, seven, 1)));
    assert!(granted(store.try_acquire(now + HALF, seven, 1)));
}

#[test]
fn a_retry_for_space_tells_its_moment() {
    let mut store = store(Settings::new(R, 1));
    let ([seven, eight, nine], now) = (modems([7, 8, 9]), 5 * SECOND);
    // Seven has a debt, eight the slot; both are settled in a second.
    for modem in [seven, eight] {
        assert!(granted(store.try_acquire(now, modem, 2)));
    }
    let settled = (Some(SECOND), Some(now + SECOND));
    assert_eq!(told(store.try_acquire(now, nine, 1)), settled);
    // The wait is at least 1 ms.
    let late = now + Duration::from_nanos(999_999_999);
    let least = Duration::from_millis(1);
    let told = told(store.try_acquire(late, nine, 1));
    assert_eq!(told, (Some(least), Some(late + least)));
    assert_eq!(store.reserve(late, nine, 1, SECOND), Ok(None));
}

#[test]
fn a_clock_set_back_is_waited_for() {
    let mut store = store(Settings::new(R, 2));
    let ([seven, eight], back) = (modems([7, 8]), 8 * SECOND);
    let now = back + 2 * SECOND;
    assert!(granted(store.try_acquire(now, seven, 4)));
    // Two seconds more until something comes back, and the same moment.
    let due = now + HALF;
    let later = (Some(2 * SECOND + HALF), Some(due));
    assert_eq!(told(store.try_acquire(back, seven, 1)), later);
    assert_eq!(store.reserve(back, seven, 1, 2 * SECOND), Ok(None));
    let before = now + Duration::from_nanos(499_999_999);
    assert!(!granted(store.peek(before, seven, 1)));
    assert!(granted(store.try_acquire(due, seven, 1)));
    // What is there is granted at once.
    assert!(granted(store.try_acquire(now, eight, 1)));
    assert!(granted(store.try_acquire(back, eight, 3)));
}

#[test]
fn a_moment_can_be_after_the_last_one() {
    let mut store = store(Settings::new(R, 1));
    let ([seven], last) = (modems([7]), Duration::from_nanos(1 << 62));
    assert_eq!(told(store.try_acquire(last, seven, 4)), (None, Some(last)));
    let after = (Some(HALF), Some(last + HALF));
    assert_eq!(told(store.try_acquire(last, seven, 1)), after);
}

#[test]
fn a_forgotten_modem_keeps_its_debt() {
    let mut store = store(Settings::new(R, 1));
    let [seven, eight, nine] = modems([7, 8, 9]);
    assert!(granted(store.try_acquire(ZERO, seven, 4)));
    assert!(granted(store.try_acquire(ZERO, eight, 1)));
    assert_eq!(retry(store.try_acquire(ZERO, nine, 1)), Some(HALF));
    assert_eq!(retry(store.try_acquire(ZERO, seven, 1)), Some(HALF));
    assert_eq!(store.refund(eight, 1), Ok(true));
    assert_eq!(store.refund(nine, 1), Ok(false));
    assert_eq!(store.remove(seven), Ok(true));
    assert_eq!(store.remove(seven), Ok(false));
    assert_eq!(store.is_empty(), Ok(true));
    assert_eq!(store.clear(), Ok(()));
    assert!(store.words().iter().all(|&word| word == 0));
}

/// A try counts that the modem's own bucket answers with a retry, and nothing else does.
#[test]
fn tries_turned_away_are_counted() {
    let mut store = store(Settings::new(R, 2));
    let [seven, eight] = modems([7, 8]);
    assert!(granted(store.try_acquire(ZERO, seven, 4)));
    assert_eq!(store.turned_away(seven), Ok(0));
    for times in 1..4 {
        assert_eq!(retry(store.try_acquire(ZERO, seven, 1)), Some(HALF));
        assert_eq!(store.turned_away(seven), Ok(times));
    }
    assert_eq!(retry(store.peek(ZERO, seven, 1)), Some(HALF));
    assert_eq!(store.reserve(ZERO, seven, 1, ZERO), Ok(None));
    let never = store.try_acquire(ZERO, seven, 5).expect("not refused");
    assert!(never.is_impossible());
    assert_eq!(store.refund(seven, 1), Ok(true));
    for cost in [0, 1] {
        assert!(granted(store.try_acquire(ZERO, seven, cost)));
    }
    let reserved = store.reserve(ZERO, seven, 1, HALF).expect("not refused");
    assert_eq!(reserved.expect("reserved").wait, HALF);
    assert_eq!(store.turned_away(seven), Ok(3));
    // Each modem has a count of its own, and keys of one hash have too.
    assert_eq!(store.turned_away(eight), Ok(0));
    assert_eq!(store.turned_away(Key::new(seven.hash, 8)), Ok(0));
    // It is in the words: a look has it, and so has a store that is resumed.
    assert_eq!(store.look().turned_away(seven), Ok(3));
    let (settings, words) = (*store.settings(), store.into_words());
    let resumed = Look::resume(settings, &words[..]).expect("the same settings");
    assert_eq!(resumed.turned_away(seven), Ok(3));
}

#[test]
fn the_count_begins_with_the_slot() {
    let settings = Settings::new(R.initial(1), 1);
    let [seven, eight, nine] = modems([7, 8, 9]);
    // The try that gives the slot counts. A reservation that does is not counted.
    let mut first = store(settings);
    assert_eq!(retry(first.try_acquire(ZERO, seven, 2)), Some(HALF));
    assert_eq!(first.turned_away(seven), Ok(1));
    let mut other = store(settings);
    assert_eq!(other.reserve(ZERO, seven, 2, ZERO), Ok(None));
    assert_eq!((other.len(), other.turned_away(seven)), (Ok(1), Ok(0)));
    // Seven becomes a debt, and its count is gone. For nine there is no room: that retry counts nowhere.
    assert!(granted(first.try_acquire(ZERO, eight, 1)));
    assert_eq!(first.turned_away(seven), Ok(0));
    assert!(!granted(first.try_acquire(ZERO, nine, 1)));
    assert!(granted(first.peek(ZERO, nine, 1)));
    for modem in [eight, nine] {
        assert_eq!(first.turned_away(modem), Ok(0));
    }
    // It comes back, in debt, and begins anew.
    assert!(!granted(first.try_acquire(ZERO, seven, 2)));
    assert_eq!(first.turned_away(seven), Ok(1));
    assert_eq!(first.remove(seven), Ok(true));
    assert_eq!(first.turned_away(seven), Ok(0));
}

/// Refused as a removal is: for a count that is more than a shard holds, for the total, and for no other word.
#[test]
fn the_count_is_refused_as_a_removal() {
    let settings = Settings::new(R, 1);
    let mut first = store(settings);
    let [modem] = modems([7]);
    assert!(granted(first.try_acquire(ZERO, modem, 4)));
    let words = first.into_words();
    let refused = (0..words.len()).filter(|&place| {
        let mut damaged = words.clone();
        damaged[place] = u64::MAX;
        let Ok(mut store) = Store::resume(settings, damaged) else {
            return false;
        };
        let (looked, removed) = (store.turned_away(modem), store.remove(modem));
        assert_eq!(looked.err(), removed.err());
        looked == Err(Refusal::Memory)
    });
    // The counts of slots and of debts. The total is refused by the resume.
    assert_eq!(refused.count(), 2);
}

#[test]
fn a_debt_can_be_forgotten() {
    let mut store = store(Settings::new(R, 1).when_full(WhenFull::ForgetDebt));
    for modem in 7..12 {
        assert!(granted(store.try_acquire(ZERO, Key::fnv1a(modem), 4)));
    }
}

#[test]
fn a_new_modem_has_the_initial_tokens() {
    let mut store = store(Settings::new(R.initial(1), 1));
    let [seven] = modems([7]);
    assert_eq!(store.available(ZERO, seven), Ok(1));
    assert_eq!(retry(store.try_acquire(ZERO, seven, 2)), Some(HALF));
}

#[test]
fn an_idle_modem_goes() {
    let idle = Duration::from_secs(3);
    let mut store = store(Settings::new(R, 2).idle(idle));
    let [seven, eight] = modems([7, 8]);
    assert!(granted(store.try_acquire(ZERO, seven, 1)));
    assert!(granted(store.try_acquire(4 * SECOND, eight, 1)));
    assert_eq!(store.len(), Ok(1));
}

#[test]
fn a_closed_limiter_grants_nothing() {
    let mut store = store(Settings::closed(1));
    let [modem] = modems([7]);
    assert_eq!(told(store.try_acquire(HALF, modem, 0)), (None, Some(HALF)));
    assert_eq!(told(store.peek(HALF, modem, 0)), (None, Some(HALF)));
    let one = store.try_acquire(ZERO, modem, 1).expect("not refused");
    assert!(one.is_impossible() && one.moment().is_none());
    assert_eq!(store.reserve(ZERO, modem, 0, ZERO), Ok(None));
    assert_eq!(store.available(ZERO, modem), Ok(0));
    assert_eq!(store.turned_away(modem), Ok(0));
    assert_eq!(store.refund(modem, 1), Ok(false));
}

#[test]
fn every_refusal() {
    let refusal = |settings: Settings, words: usize| {
        let set_up = Store::set_up(settings, vec![0; words]);
        set_up.expect_err("refused")
    };
    let rate = |rate| Settings::new(rate, 1);
    assert_eq!(refusal(rate(Rate::per_second(0)), ONE), Refusal::Amount);
    assert_eq!(refusal(rate(Rate::new(1, ZERO)), ONE), Refusal::Period);
    let longest = Rate::new(1, Duration::MAX);
    assert_eq!(refusal(rate(longest), ONE), Refusal::Period);
    assert_eq!(refusal(rate(R.burst(65_536)), ONE), Refusal::Burst);
    assert_eq!(refusal(Settings::new(R, 65_537), ONE), Refusal::Sizes);
    assert_eq!(refusal(rate(R), ONE + 1), Refusal::Memory);
    assert_eq!(refusal(rate(R), 0), Refusal::Memory);

    let mut store = store(rate(R));
    let [modem] = modems([7]);
    let last = Duration::from_nanos(1 << 62);
    let late = last + Duration::from_nanos(1);
    let long = Duration::from_nanos((1 << 46) + 1);
    assert_eq!(store.available(last, modem), Ok(4));
    assert_eq!(store.try_acquire(late, modem, 1), Err(Refusal::Moment));
    assert_eq!(store.peek(Duration::MAX, modem, 1), Err(Refusal::Moment));
    assert_eq!(store.reserve(late, modem, 1, long), Err(Refusal::Moment));
    assert_eq!(store.reserve(ZERO, modem, 1, long), Err(Refusal::MaxWait));
    assert_eq!(Refusal::MaxWait.code(), 17);
    assert_eq!(store.len(), Ok(0));
}

#[test]
fn refusals_read_as_in_the_header() {
    let header = include_str!("../../c/limiter.h");
    let refusals = [
        Refusal::Amount,
        Refusal::Period,
        Refusal::Burst,
        Refusal::Sizes,
        Refusal::Memory,
        Refusal::Moment,
        Refusal::MaxWait,
        Refusal::AddressLength,
        Refusal::GroupAddress,
        Refusal::Buffer,
        Refusal::Class,
        Refusal::Chain,
        Refusal::Shard,
        Refusal::Records,
        Refusal::Twins,
        Refusal::UsedPast,
    ];
    for refusal in refusals {
        let line = format!("return \"{refusal}\";");
        assert!(header.contains(&line), "{line}");
    }
    // The four other codes, and the one for all that the header does not know.
    assert_eq!(header.matches(": return \"").count(), refusals.len() + 5);
}

#[test]
fn a_store_is_resumed() {
    let settings = Settings::new(R, 10).shards(4).idle(Duration::from_mins(1));
    let mut first = store(settings);
    let [modem] = modems([7]);
    assert!(granted(first.try_acquire(SECOND, modem, 4)));
    let mut words = first.into_words();
    let mut second = LentStore::resume(settings, &mut words).expect("the same settings");
    assert_eq!(retry(second.try_acquire(SECOND, modem, 1)), Some(HALF));
    // Another number of words, and words that no store has.
    let refused = |words: &[u64]| Look::resume(settings, words).expect_err("refused");
    // Versions 0.6 and 0.7 had no total.
    assert_eq!(refused(&words[1..]), Refusal::Memory);
    // Version 0.5 had a word less for each of the three places in the four shards, too.
    assert_eq!(refused(&words[13..]), Refusal::Memory);
    words.fill(u64::MAX);
    assert_eq!(refused(&words), Refusal::Memory);
    assert!(words.iter().all(|&word| word == u64::MAX));
}

/// What a resume does not look at: other settings of the same size, and any word but the total. A count of slots or of debts is refused when a key of its
/// shard asks.
#[test]
fn a_resume_looks_at_the_total_alone() {
    let settings = Settings::new(R, 1);
    let mut first = store(settings);
    let [modem] = modems([7]);
    assert!(granted(first.try_acquire(SECOND, modem, 4)));
    let words = first.into_words();
    let refused: Vec<usize> = (0..words.len())
        .filter(|&place| {
            let mut damaged = words.clone();
            damaged[place] = u64::MAX;
            Look::resume(settings, &damaged[..]).is_err()
        })
        .collect();
    assert_eq!(refused.len(), 1);
    let other = Settings::new(R.burst(5), 1);
    assert!(Look::resume(other, &words[..]).is_ok());
    let asked: Vec<usize> = (0..words.len())
        .filter(|&place| {
            let mut damaged = words.clone();
            damaged[place] = u64::MAX;
            let peeked =
                Look::resume(settings, &damaged[..]).map(|look| look.peek(SECOND, modem, 1));
            matches!(peeked, Ok(Err(Refusal::Memory)))
        })
        .collect();
    assert_eq!(asked.len(), 2);
}

#[test]
fn other_settings_have_other_numbers() {
    let settings = Settings::new(R, 100).shards(4);
    let others = [
        Settings::new(R, 101).shards(4),
        settings.shards(8),
        settings.idle(SECOND),
        settings.idle(ZERO),
        settings.when_full(WhenFull::ForgetDebt),
        Settings::new(R.burst(5), 100).shards(4),
        Settings::new(R.initial(4), 100).shards(4),
        Settings::new(Rate::new(2, HALF).burst(4), 100).shards(4),
        Settings::new(Rate::per_second(3).burst(4), 100).shards(4),
        Settings::new(Rate::per_second(4), 100).shards(4),
        Settings::closed(100).shards(4),
    ];
    let all: HashSet<_> = others
        .iter()
        .chain([&settings])
        .map(Settings::numbers)
        .collect();
    assert_eq!(all.len(), others.len() + 1);
    assert_eq!(
        settings.numbers(),
        Settings::new(R, 100).shards(4).numbers()
    );
}

#[test]
fn readers_look_while_others_look() {
    let locked = RwLock::new(store(Settings::new(R, 10)));
    let [modem] = modems([7]);
    assert!(granted(
        locked
            .write()
            .expect("unlocked")
            .try_acquire(ZERO, modem, 3)
    ));
    let (one, other) = (
        locked.read().expect("no writer"),
        locked.read().expect("no writer"),
    );
    let look = other.look();
    std::thread::scope(|threads| {
        let peeking = threads.spawn(|| granted(one.peek(ZERO, modem, 1)));
        assert_eq!(look.available(ZERO, modem), Ok(1));
        assert_eq!(look.turned_away(modem), Ok(0));
        assert_eq!(look.len(), Ok(1));
        assert!(peeking.join().expect("no panic"));
    });
}

#[cfg(feature = "alloc")]
#[test]
fn a_store_owns_its_words() {
    use limiter::OwnedStore;

    let settings = Settings::new(R, 4_096).shards(64);
    let mut store = OwnedStore::new(settings).expect("accepted");
    let [modem] = modems([7]);
    assert!(granted(store.try_acquire(ZERO, modem, 1)));
    assert_eq!(Ok(store.words().len()), settings.words());
    let refused = OwnedStore::new(Settings::new(R, 65_537));
    assert_eq!(refused.expect_err("refused"), Refusal::Sizes);
    // Short, whatever the words are.
    let text = format!("{store:?}");
    assert!(
        text.contains("max_keys: 4096") && text.len() < 300,
        "{text}"
    );
}
