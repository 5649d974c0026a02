//! A power cut is over and the modems of a village come back, more of them than there is room for. Each is answered, or told when to ask again.
//!
//! `cargo run --offline --example power_cut`

use std::time::Duration;

use limiter::{Decision, Key, OwnedStore, Rate, Refusal, Settings};

const MODEMS: u64 = 12;

fn main() -> Result<(), Refusal> {
    // Two answers a second for each modem, at most four at once. Room for eight modems, and for the debts of eight more.
    let settings = Settings::new(Rate::per_second(2).burst(4), 8).idle(Duration::from_mins(1));
    let mut store = OwnedStore::new(settings)?;

    let now = Duration::from_secs(100);
    for modem in 1..=MODEMS {
        let mut answered = 0;
        let told = loop {
            let decision = store.try_acquire(now, Key::fnv1a(modem), 1)?;
            if !decision.is_acquired() {
                break decision;
            }
            answered += 1;
        };
        match told {
            Decision::Retry { after, moment, .. } => {
                println!(
                    "modem {modem}: {answered} answered, ask again in {after:?}, at {moment:?}"
                );
            }
            other => println!("modem {modem}: {answered} answered, then {other:?}"),
        }
    }
    println!("{} modems have a slot", store.len()?);

    // Has modem 12 been trying? It has a slot, and a count in it. Modem 1 lost its slot to others, and its count with it.
    for modem in [12, 1] {
        let times = store.turned_away(Key::fnv1a(modem))?;
        println!("modem {modem}: tries turned away since it got its slot: {times}");
    }

    // Modem 1 did not lose what it owes.
    let first = Key::fnv1a(1);
    println!("modem 1 has {} tokens", store.available(now, first)?);
    match store.reserve(now, first, 2, Duration::from_secs(2))? {
        Some(reserved) => println!(
            "modem 1: two more are reserved, to be used in {:?}, at {:?}",
            reserved.wait, reserved.moment
        ),
        None => println!("modem 1: no reservation within two seconds"),
    }
    Ok(())
}
