//! Who is still in debt, as the morning shift asks.

use core::time::Duration;

use limiter::{Class, ClassTable, Debt, Decision, Key, Look, Rate, Refusal, Settings, Store};

const HALF: Duration = Duration::from_millis(500);
const NANO: Duration = Duration::from_nanos(1);
const ZERO: Duration = Duration::ZERO;

/// A nanosecond before the longest debt of `three_debts` settles.
const JUST_BEFORE: Duration = Duration::from_nanos(1_499_999_999);

/// 2 tokens a second, at most 4.
const R: Rate = Rate::per_second(2).burst(4);

/// A record that no debt is.
const OTHER: Debt = Debt {
    hash: 0xdead,
    settles_at: 0xbeef,
};

/// A modem whose number is its hash too.
const fn modem(number: u64) -> Key {
    Key::new(number, number)
}

/// A store on words that held something else before: set-up clears them.
fn store(settings: Settings) -> Store<Vec<u64>> {
    let words = settings.words().expect("sizes within bounds");
    Store::set_up(settings, vec![7; words]).expect("settings within bounds")
}

/// Room for four modems. Modems 1 to 4 take 1 to 4 tokens at moment 0, and modems 5 to 7 take the slots of 1 to 3.
fn three_debts() -> Store<Vec<u64>> {
    let mut store = store(Settings::new(R, 4));
    for (number, cost) in [(1, 1), (2, 2), (3, 3), (4, 4), (5, 1), (6, 1), (7, 1)] {
        let decision = store.try_acquire(ZERO, modem(number), cost);
        assert!(decision.expect("not refused").is_acquired());
    }
    store
}

/// The list of a shard with so many records, and the records past it, which stay.
fn list<W: AsRef<[u64]>, C>(
    store: &Store<W, C>,
    now: Duration,
    shard: u64,
    room: usize,
) -> Result<Vec<Debt>, Refusal> {
    let mut records = vec![OTHER; room];
    let listed = store.debts(now, shard, &mut records);
    let written = listed.unwrap_or(0);
    assert!(records[written..].iter().all(|&record| record == OTHER));
    records.truncate(written);
    listed.map(|_| records)
}

#[test]
fn a_debt_is_listed_until_it_settles() {
    let store = three_debts();
    for halves in 0..5 {
        let now = halves * HALF;
        let left: Vec<u64> = (1..=3).filter(|&debt| debt > u64::from(halves)).collect();
        let listed = list(&store, now, 0, 4).expect("not refused");
        let hashes: Vec<u64> = listed.iter().map(|debt| debt.hash).collect();
        assert_eq!(hashes, left);
        for debt in listed {
            let settles = u32::try_from(debt.hash).expect("a modem") * HALF;
            assert_eq!(
                (debt.moment(), debt.wait(now)),
                (settles, settles.saturating_sub(now))
            );
            // What the shift reads is what the server does: the modem has no full bucket.
            let tokens = store.available(now, modem(debt.hash));
            assert!(tokens.expect("not refused") < 4);
        }
    }
    // Strictly after the moment.
    assert_eq!(
        list(&store, JUST_BEFORE, 0, 1).map(|list| list.len()),
        Ok(1)
    );
    assert_eq!(list(&store, 3 * HALF, 0, 0), Ok(vec![]));
}

#[test]
fn a_debt_goes_with_its_modem() {
    let mut store = three_debts();
    let hashes = |store: &Store<Vec<u64>>| -> Vec<u64> {
        let listed = list(store, ZERO, 0, 4).expect("not refused");
        listed.iter().map(|debt| debt.hash).collect()
    };
    assert_eq!(store.remove(modem(2)), Ok(true));
    assert_eq!(hashes(&store), [1, 3]);
    assert_eq!(store.refund(modem(1), 1), Ok(true));
    assert_eq!(hashes(&store), [3]);
    // Modem 3 comes back where modem 4 made room: it has one token left, and its debt is in its bucket again.
    assert_eq!(store.remove(modem(4)), Ok(true));
    let decision = store.try_acquire(ZERO, modem(3), 2).expect("not refused");
    assert!(matches!(decision, Decision::Retry { after: HALF, .. }));
    assert_eq!(hashes(&store), []);
    assert_eq!(store.clear(), Ok(()));
    assert_eq!(hashes(&store), []);
}

#[test]
fn every_length_of_a_list() {
    let store = three_debts();
    for room in 0..3 {
        assert_eq!(list(&store, ZERO, 0, room), Err(Refusal::Records));
    }
    for room in 3..6 {
        assert_eq!(list(&store, ZERO, 0, room).map(|list| list.len()), Ok(3));
    }
}

#[test]
fn refusals_in_their_order() {
    const LEDGER: usize = 1 + 3 + 7 * 4;
    let settings = Settings::new(R, 8).shards(2);
    let mut words = store(settings).into_words();
    let second = (words.len() - 1) / 2;
    words[LEDGER] = 2;
    words[LEDGER + 3] = 10;
    words[LEDGER + 5] = 11;
    words[LEDGER + second] = 5;
    let last = Duration::from_nanos(1 << 62);
    let look = Look::resume(settings, &words).expect("a store");
    assert_eq!(list(&look, last + NANO, 2, 0), Err(Refusal::Moment));
    assert_eq!(list(&look, Duration::MAX, 2, 0), Err(Refusal::Moment));
    for shard in [2, 3, 64, 1 << 32, u64::MAX] {
        assert_eq!(list(&look, last, shard, 9), Err(Refusal::Shard));
    }
    assert_eq!(list(&look, ZERO, 1, 0), Err(Refusal::Memory));
    assert_eq!(list(&look, last, 1, 9), Err(Refusal::Memory));
    assert_eq!(list(&look, ZERO, 0, 1), Err(Refusal::Records));
    assert_eq!(list(&look, 10 * NANO, 0, 1).map(|list| list.len()), Ok(1));
    let codes = [Refusal::Shard, Refusal::Records].map(Refusal::code);
    assert_eq!(codes, [26, 27]);
    // The slots are not looked at.
    words[1] = u64::MAX;
    let look = Look::resume(settings, &words).expect("a store");
    assert_eq!(list(&look, ZERO, 0, 2).map(|list| list.len()), Ok(2));
    assert_eq!(look.available(ZERO, modem(1)), Err(Refusal::Memory));
}

#[test]
fn a_closed_store_is_listed() {
    let words = three_debts().into_words();
    let closed = Look::resume(Settings::closed(4), &words).expect("the same sizes");
    assert_eq!(list(&closed, ZERO, 0, 3).map(|list| list.len()), Ok(3));
}

#[test]
fn a_store_with_classes_is_listed() {
    let classes = ClassTable::of(&[Class::per_second(9)]).expect("a class");
    let settings = Settings::new(R, 1);
    let words = settings.words_with(&classes).expect("sizes");
    let mut store = Store::set_up_with(settings, &classes, vec![0; words]).expect("accepted");
    for number in [7, 8] {
        let decision = store.try_acquire(ZERO, modem(number), 2);
        assert!(decision.expect("not refused").is_acquired());
    }
    let debt = Debt {
        hash: 7,
        settles_at: 1_000_000_000,
    };
    assert_eq!(list(&store, ZERO, 0, 1), Ok(vec![debt]));
    assert_eq!(list(&store.look(), ZERO, 0, 1), Ok(vec![debt]));
}

#[cfg(feature = "alloc")]
#[test]
fn the_debts_of_all_shards() {
    let settings = Settings::new(R, 300).shards(3);
    let mut store = store(settings);
    for number in 0..600 {
        let decision = store.try_acquire(ZERO, Key::fnv1a(number), 1);
        assert!(!decision.expect("not refused").is_impossible());
    }
    // One shard after another: four are in use, each with room for 75 debts.
    let shards = (0..4).map(|shard| list(&store, ZERO, shard, 75).expect("not refused"));
    let all: Vec<Debt> = shards.flatten().collect();
    assert!(all.len() > 200, "{}", all.len());
    assert_eq!(list(&store, ZERO, 4, 75), Err(Refusal::Shard));
    assert_eq!(store.all_debts(ZERO), Ok(all));
    assert_eq!(store.all_debts(HALF), Ok(vec![]));
    let late = Duration::from_nanos((1 << 62) + 1);
    assert_eq!(store.all_debts(late), Err(Refusal::Moment));
    // A debt count that is damaged, in the last shard.
    let mut words = store.into_words();
    let shard = (words.len() - 1) / 4;
    words[1 + 3 * shard + 3 + 7 * 75] = 76;
    let look = Look::resume(settings, &words).expect("a store");
    assert_eq!(look.all_debts(ZERO), Err(Refusal::Memory));
}
