//! Limits above the keys, as a server uses them.

use core::time::Duration;
use std::sync::Arc;

use limiter::{
    Class, ClassNumber, ClassTable, Decision, HardwareAddress, Key, Look, Rate, Refusal, Settings,
    Store,
};

const SECOND: Duration = Duration::from_secs(1);
const HALF: Duration = Duration::from_millis(500);
const ZERO: Duration = Duration::ZERO;

/// The words of a store for one key.
const ONE: usize = 19;

/// 2 tokens a second, at most 4, for one modem.
fn settings() -> Settings {
    Settings::new(Rate::per_second(2).burst(4), 1)
}

/// A hub, 3 a second and at most 6, and a node below it, 1 a second and at most 5.
fn hub_and_node() -> (ClassTable, ClassNumber, ClassNumber) {
    let mut classes = ClassTable::new();
    let hub = classes.add(Class::per_second(3).burst(6)).expect("a hub");
    let node = Class::per_second(1).burst(5).parent(hub);
    let node = classes.add(node).expect("a node");
    (classes, hub, node)
}

/// A store with these classes, on words that held something else before.
fn store<C: AsRef<ClassTable>>(settings: Settings, classes: C) -> Store<Vec<u64>, C> {
    let words = settings.words_with(classes.as_ref()).expect("sizes");
    Store::set_up_with(settings, classes, vec![7; words]).expect("accepted")
}

fn wait(answer: Result<Decision, Refusal>) -> Option<Duration> {
    answer.expect("not refused").retry_after()
}

fn granted(answer: Result<Decision, Refusal>) -> bool {
    answer.expect("not refused").is_acquired()
}

#[test]
fn a_class_has_two_words() {
    let (classes, ..) = hub_and_node();
    assert_eq!(settings().words(), Ok(ONE));
    assert_eq!(settings().words_with(&ClassTable::new()), Ok(ONE));
    assert_eq!(settings().words_with(&classes), Ok(ONE + 4));
    let many = ClassTable::of(&[Class::per_second(1); 64]).expect("64 classes");
    assert_eq!(settings().words_with(&many), Ok(ONE + 128));
    let large = Settings::new(Rate::per_second(2), 65_537);
    assert_eq!(large.words_with(&classes), Err(Refusal::Sizes));
    let other = Store::set_up_with(settings(), &classes, vec![0; ONE]);
    assert_eq!(other.expect_err("refused"), Refusal::Memory);
    // Without a table its words are too many.
    let without = Store::set_up(settings(), vec![0; ONE + 4]);
    assert_eq!(without.expect_err("refused"), Refusal::Memory);
}

#[test]
fn a_table_is_checked_when_it_is_built() {
    let mut classes = ClassTable::new();
    let mut refused = |class| classes.add(class).expect_err("refused");
    assert_eq!(refused(Class::per_second(0)), Refusal::Amount);
    assert_eq!(refused(Class::per_second(65_536)), Refusal::Amount);
    assert_eq!(refused(Class::new(1, ZERO)), Refusal::Period);
    assert_eq!(refused(Class::new(1, Duration::MAX)), Refusal::Period);
    assert_eq!(refused(Class::per_second(1).burst(0)), Refusal::Burst);
    assert_eq!(refused(Class::per_second(1).burst(65_536)), Refusal::Burst);
    let orphan = Class::per_second(1).parent(ClassNumber::new(0));
    assert_eq!(refused(orphan), Refusal::Class);
    assert!(classes.is_empty());
    // A chain of eight, and no ninth below it.
    let mut above = classes.add(Class::per_second(1)).expect("a root");
    for _ in 0..7 {
        let below = Class::per_second(1).parent(above);
        above = classes.add(below).expect("a chain of at most eight");
    }
    let ninth = classes.add(Class::per_second(1).parent(above));
    assert_eq!(ninth, Err(Refusal::Chain));
    assert_eq!(classes.len(), 8);
    while classes.len() < 64 {
        classes.add(Class::per_second(1)).expect("room");
    }
    assert_eq!(classes.add(Class::per_second(0)), Err(Refusal::Class));
    assert_eq!(classes.numbers().len(), 6 * 64);
}

/// A class below the one of this number.
fn below(number: u64) -> Class {
    Class::per_second(9).parent(ClassNumber::new(number))
}

#[test]
fn a_list_of_classes_is_checked_in_the_order_of_set_up() {
    let refused = |classes: &[Class]| ClassTable::of(classes).expect_err("refused");
    let root = Class::per_second(9);
    assert_eq!(refused(&[Class::per_second(0); 65]), Refusal::Class);
    // The rates class by class, then the parents, then the chains.
    let bad = [below(9), below(1), Class::new(1, ZERO), root.burst(0)];
    assert_eq!(refused(&bad), Refusal::Period);
    assert_eq!(
        refused(&[below(9), below(1), root.burst(0)]),
        Refusal::Burst
    );
    assert_eq!(refused(&[below(9), below(1)]), Refusal::Class);
    assert_eq!(refused(&[below(u64::MAX)]), Refusal::Class);
    assert_eq!(refused(&[root, below(1)]), Refusal::Chain);
    assert_eq!(refused(&[below(1), below(0), root]), Refusal::Chain);
    // Parents after their children, up to eight in a chain.
    let mut chain: Vec<Class> = (1..8).map(below).collect();
    chain.push(root);
    assert_eq!(ClassTable::of(&chain).map(|table| table.len()), Ok(8));
    chain.insert(8, root);
    chain[7] = below(8);
    assert_eq!(refused(&chain), Refusal::Chain);
    // Class by class gives the same table.
    let mut built = ClassTable::new();
    let hub = built.add(root).expect("a hub");
    built.add(below(hub.get())).expect("a node");
    assert_eq!(ClassTable::of(&[root, below(0)]), Ok(built));
}

/// What is built is accepted by the library.
#[test]
fn the_library_accepts_every_table_that_is_built() {
    for count in 0..=64 {
        let class = |number: u64| match number % 8 {
            0 => Class::per_second(65_535),
            _ => Class::new(1, Duration::from_nanos(1 << 46)).parent(ClassNumber::new(number - 1)),
        };
        let classes: Vec<Class> = (0..count).map(class).collect();
        let table = ClassTable::of(&classes).expect("chains of at most eight");
        let mut store = store(settings(), table);
        let Some(last) = count.checked_sub(1) else {
            continue;
        };
        let modem = Key::fnv1a(7);
        let through = ClassNumber::new(last);
        assert!(granted(store.try_acquire_through(through, ZERO, modem, 1)));
        let none = ClassNumber::new(count);
        let refused = store.try_acquire_through(none, ZERO, modem, 1);
        assert_eq!(refused, Err(Refusal::Class));
    }
}

#[test]
fn every_bucket_on_the_chain_has_to_grant() {
    let (classes, hub, node) = hub_and_node();
    let mut store = store(settings(), classes);
    let modem = Key::fnv1a(7);
    assert!(granted(store.try_acquire_through(node, ZERO, modem, 4)));
    // The modem lacks two and waits a second, the node lacks one and waits as long.
    let denied = store.try_acquire_through(node, ZERO, modem, 2);
    assert_eq!(wait(denied), Some(SECOND));
    assert_eq!(store.turned_away(modem), Ok(1));
    // Then the modem has three and the node waits half a second more. Its own bucket did not turn the modem away.
    let then = SECOND + HALF;
    assert!(granted(store.peek(then, modem, 3)));
    let denied = store.try_acquire_through(node, then, modem, 3);
    assert_eq!(denied.expect("not refused").moment(), Some(2 * SECOND));
    assert_eq!(store.turned_away(modem), Ok(1));
    // Through the hub alone the node is not asked.
    assert!(granted(store.try_acquire_through(hub, then, modem, 3)));
    // Over the hub's burst, and over the modem's.
    for cost in [5, 7] {
        let never = store.try_acquire_through(node, then, modem, cost);
        assert!(never.expect("not refused").is_impossible());
    }
}

#[test]
fn other_calls_leave_the_classes() {
    let (classes, _, node) = hub_and_node();
    let mut store = store(settings(), &classes);
    let modem = Key::fnv1a(7);
    assert!(granted(store.try_acquire_through(node, ZERO, modem, 4)));
    let buckets = |words: &[u64]| words[ONE..].to_vec();
    let before = buckets(store.words());
    assert_eq!(store.refund(modem, 4), Ok(true));
    assert!(granted(store.try_acquire(ZERO, modem, 3)));
    let reserved = store.reserve(ZERO, modem, 2, SECOND).expect("not refused");
    assert!(reserved.is_some());
    assert_eq!(store.remove(modem), Ok(true));
    let address = HardwareAddress::new([0, 1, 2, 3, 4, 5]);
    assert!(granted(store.try_acquire_modem(ZERO, address, 1)));
    assert_eq!(buckets(store.words()), before);
    // By address, through the node: the same modem.
    let key = address.key().expect("a modem");
    assert!(granted(store.try_acquire_through(node, ZERO, key, 1)));
    assert_eq!(store.available(ZERO, key), Ok(2));
    // Cleared, the node is full again.
    assert_eq!(store.clear(), Ok(()));
    assert!(store.words().iter().all(|&word| word == 0));
    assert!(granted(store.try_acquire_through(node, ZERO, modem, 4)));
}

#[test]
fn a_store_with_classes_is_resumed_and_looked_at() {
    let (classes, _, node) = hub_and_node();
    let classes = Arc::new(classes);
    let mut first = store(settings(), Arc::clone(&classes));
    let modem = Key::fnv1a(7);
    assert!(granted(first.try_acquire_through(node, ZERO, modem, 4)));
    assert_eq!(first.look().available(ZERO, modem), Ok(0));
    assert_eq!(first.classes().numbers(), classes.numbers());
    let mut words = first.into_words();
    // Without the table the words are too many.
    let refused = Look::resume(settings(), &words[..]).expect_err("refused");
    assert_eq!(refused, Refusal::Memory);
    let look = Store::resume_with(settings(), &*classes, &words[..]).expect("the same");
    assert_eq!(look.len(), Ok(1));
    let mut second = Store::resume_with(settings(), &classes, &mut words[..]).expect("the same");
    let denied = second.try_acquire_through(node, ZERO, modem, 2);
    assert_eq!(wait(denied), Some(SECOND));
}

#[test]
fn a_closed_limiter_with_classes() {
    let (classes, _, node) = hub_and_node();
    let mut store = store(Settings::closed(1), classes);
    let modem = Key::fnv1a(7);
    assert!(granted(store.try_acquire_through(node, HALF, modem, 0)));
    let never = store.try_acquire_through(node, HALF, modem, 1);
    assert!(never.expect("not refused").is_impossible());
    let late = Duration::from_nanos((1 << 62) + 1);
    let refused = store.try_acquire_through(node, late, modem, 1);
    assert_eq!(refused, Err(Refusal::Moment));
}
