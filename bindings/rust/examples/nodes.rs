//! The power is back. The modems of two fibre nodes below one hub all ask at once, and neither node may flood the hub. A modem whose own bucket would grant
//! waits for its node. bindings/c/classes.c does the same in C.
//!
//! `cargo run --offline --example nodes`

use std::time::Duration;

use limiter::{Class, ClassNumber, ClassTable, Key, OwnedStore, Rate, Refusal, Settings, Store};

/// A server's store: it owns its words and the table.
type Nodes = Store<Box<[u64]>, ClassTable>;

/// A modem asks through its node until it has to wait.
fn ask(store: &mut Nodes, now: Duration, modem: u64, node: ClassNumber) -> Result<(), Refusal> {
    let key = Key::fnv1a(modem);
    let mut granted = 0;
    let told = loop {
        let decision = store.try_acquire_through(node, now, key, 1)?;
        if !decision.is_acquired() {
            break decision;
        }
        granted += 1;
    };
    let own = if store.peek(now, key, 1)?.is_acquired() {
        ", though its own bucket would grant"
    } else {
        ""
    };
    let until = told.moment().unwrap_or(Duration::MAX);
    let number = node.get();
    println!("modem {modem} on node {number} gets {granted}; not now until {until:?}{own}");
    Ok(())
}

/// What a technician sees of a modem. Tries that only a node or the hub turned away do not count.
fn look(store: &Nodes, now: Duration, modem: u64) -> Result<(), Refusal> {
    let key = Key::fnv1a(modem);
    let (left, times) = (store.available(now, key)?, store.turned_away(key)?);
    println!("modem {modem} has {left} left; tries that its own bucket turned away: {times}");
    Ok(())
}

fn main() -> Result<(), Refusal> {
    // The hub takes 5 configurations a second, at most 12 at once; each node 2 a second, at most 8 at once.
    let mut classes = ClassTable::new();
    let hub = classes.add(Class::per_second(5).burst(12))?;
    let node = Class::per_second(2).burst(8).parent(hub);
    let (east, west) = (classes.add(node)?, classes.add(node)?);

    // 1 configuration a second for each modem, at most 3 at once; room for 16 modems.
    let settings = Settings::new(Rate::per_second(1).burst(3), 16);
    let mut store = OwnedStore::with_classes(settings, classes)?;

    let now = Duration::from_secs(100);
    println!("after the power cut:");
    for modem in 1..=4 {
        ask(&mut store, now, modem, east)?;
    }
    for modem in 5..=6 {
        ask(&mut store, now, modem, west)?;
    }
    look(&store, now, 1)?;
    look(&store, now, 4)?;

    let later = now + Duration::from_secs(1);
    println!("a second later:");
    ask(&mut store, later, 4, east)?;
    ask(&mut store, later, 6, west)?;

    // A try without a class asks the modem's own bucket alone: ask through the node wherever a node's limit has to hold.
    let alone = store.try_acquire(later, Key::fnv1a(4), 1)?;
    println!("without a class: {alone:?}");
    Ok(())
}
