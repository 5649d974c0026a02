//! A server saves its store when it stops, and resumes it when it starts again. The file holds the settings, the words and a checksum over both. The library
//! takes any words of the right length whose counts are small enough, so the file is what tells other settings and damage. A server that cannot resume sets
//! up anew, and all modems then have full buckets. The module `saved_store` reads and writes the file; so does bindings/c/save.c.
//!
//! `cargo run --offline --example save_and_resume [FILE]`

mod saved_store;

use std::fs;
use std::time::{Duration, SystemTime};

use limiter::{Decision, Key, OwnedStore, Rate, Settings};
use saved_store::{Fault, replace, resume, save};

fn main() -> Result<(), Fault> {
    let named = std::env::args_os().nth(1).map(Into::into);
    let file = named
        .unwrap_or_else(|| std::env::temp_dir().join(format!("limiter-{}", std::process::id())));
    let settings = Settings::new(Rate::per_second(2).burst(4), 2_000);
    let (now, modem) = (now()?, Key::fnv1a(7));

    let mut store = OwnedStore::new(settings)?;
    let granted = store.try_acquire(now, modem, 4)?;
    println!("modem 7 asks for four: {}", told(granted, now));
    save(&store, &file)?;

    // The server starts again. Modem 7 still owes what it had.
    let mut store = resume(settings, &file)?;
    let denied = store.try_acquire(now, modem, 1)?;
    println!("resumed: modem 7 asks for one: {}", told(denied, now));

    // And again, with another burst; and after the disk lost a bit.
    let other = Settings::new(Rate::per_second(2).burst(8), 2_000);
    println!("another burst: {}", outcome(resume(other, &file)));
    let mut bytes = fs::read(&file)?;
    let middle = bytes.len() / 2;
    bytes[middle] ^= 1;
    replace(&file, &bytes)?;
    println!("a bit flipped: {}", outcome(resume(settings, &file)));
    fs::remove_file(&file)?;
    Ok(())
}

fn outcome(resumed: Result<OwnedStore, Fault>) -> String {
    resumed.map_or_else(|fault| fault.to_string(), |_| "resumed".to_string())
}

/// The time since 1970: a start that is the same when the server starts again. Moments up to the year 2116 are within bounds.
fn now() -> Result<Duration, Fault> {
    Ok(SystemTime::now().duration_since(SystemTime::UNIX_EPOCH)?)
}

/// What a decision says. A moment is printed as how far it is from now: it is a time since 1970, and another one in each run.
fn told(decision: Decision, now: Duration) -> String {
    match decision {
        Decision::Acquired { .. } => "granted".to_string(),
        Decision::Retry { moment, .. } => {
            let from_now = moment.saturating_sub(now);
            format!("to be tried again {from_now:?} from now")
        }
        _ => "never".to_string(),
    }
}
