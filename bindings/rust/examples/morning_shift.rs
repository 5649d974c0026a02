//! Who is still in debt? At night a village came back after a power cut, with more modems than the store has room for. The store forgot some of them and kept
//! their debts, and the server saved it to a file. The morning shift reads the file back and prints who is still in debt, and for how long.
//!
//! The store keeps the hash of a modem and not its address. The server knows the addresses of its customers, and hashes them as its calls do: so it names the
//! modems. A hash that it does not know is printed as it is.
//!
//! `cargo run --offline --example morning_shift [FILE]`

mod saved_store;

use std::collections::HashMap;
use std::fs;
use std::path::Path;
use std::time::Duration;

use limiter::{HardwareAddress, OwnedStore, Rate, Settings};
use saved_store::{Fault, resume, save};

/// The customers: the address of a modem, and where it is.
const CUSTOMERS: [(&str, &str); 8] = [
    ("00:1a:2b:3c:4d:01", "1 Mill Lane"),
    ("00:1a:2b:3c:4d:02", "2 Mill Lane"),
    ("00:1a:2b:3c:4d:03", "3 Mill Lane"),
    ("00:1a:2b:3c:4d:04", "the school"),
    ("00:1a:2b:3c:4d:05", "the bakery"),
    ("00:1a:2b:3c:4d:06", "6 Mill Lane"),
    ("00:1a:2b:3c:4d:07", "the vicarage"),
    ("00:1a:2b:3c:4d:08", "8 Mill Lane"),
];

/// The modems that came back, by the last byte of their addresses. Four of them are no customer's.
const MODEMS: u8 = 12;

/// Moments are times since midnight here. A server takes the time since 1970.
const NIGHT: Duration = Duration::from_hours(5);
const MORNING: Duration = Duration::from_secs(5 * 3_600 + 1_234);

fn main() -> Result<(), Fault> {
    let named = std::env::args_os().nth(1).map(Into::into);
    let file = named
        .unwrap_or_else(|| std::env::temp_dir().join(format!("morning-{}", std::process::id())));
    // One configuration in ten minutes for each modem, at most four at once. Room for six modems in two shards, and for the debts of six more.
    let rate = Rate::new(1, Duration::from_mins(10)).burst(4);
    let settings = Settings::new(rate, 6).shards(2);
    night(settings, &file)?;
    morning(settings, &file)?;
    fs::remove_file(&file)?;
    Ok(())
}

/// The power is back, and all modems ask at once, for one to four configurations. Then the store is saved.
fn night(settings: Settings, file: &Path) -> Result<(), Fault> {
    let mut store = OwnedStore::new(settings)?;
    for last in 1..=MODEMS {
        let modem = HardwareAddress::new([0x00, 0x1a, 0x2b, 0x3c, 0x4d, last]);
        store.try_acquire_modem(NIGHT, modem, 1 + u32::from(last) % 4)?;
    }
    println!("in the night: {} in debt", store.all_debts(NIGHT)?.len());
    save(&store, file)?;
    Ok(())
}

/// The morning shift lists the debts that have not settled, the longest first.
fn morning(settings: Settings, file: &Path) -> Result<(), Fault> {
    let (store, customers) = (resume(settings, file)?, customers()?);
    let mut debts = store.all_debts(MORNING)?;
    debts.sort_by_key(|debt| std::cmp::Reverse(debt.settles_at));
    println!("in the morning: {} still in debt", debts.len());
    for debt in debts {
        let seconds = debt.wait(MORNING).as_secs();
        match customers.get(&debt.hash) {
            Some((modem, place)) => println!("{seconds:>6} s: {modem}, {place}"),
            None => println!("{seconds:>6} s: unknown, hash {:016x}", debt.hash),
        }
    }
    Ok(())
}

/// The customers by the hash that the server's calls give their modems.
fn customers() -> Result<HashMap<u64, (HardwareAddress, &'static str)>, Fault> {
    let hashed = |(address, place): (&str, _)| {
        let modem: HardwareAddress = address.parse()?;
        Ok((modem.key()?.hash, (modem, place)))
    };
    CUSTOMERS.into_iter().map(hashed).collect()
}
