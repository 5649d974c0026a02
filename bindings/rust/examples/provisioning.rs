//! A provisioning server: modems ask for their configuration by hardware address. Each is answered, told when to come back, or turned away.
//!
//! `cargo run --offline --example provisioning`

use std::error::Error;
use std::time::Duration;

use limiter::{Decision, HardwareAddress, OwnedStore, Rate, Refusal, Settings};

/// What comes in: a second, and the address as the request has it.
const REQUESTS: [(u64, &str); 8] = [
    (100, "00:1a:2b:3c:4d:5e"),
    (100, "00:1a:2b:3c:4d:5e"),
    (100, "00:1a:2b:3c:4d:5e"),
    (100, "00:1a:2b:3c:4d:5f"),
    (101, "01:00:5e:00:00:01"),
    (101, "00:1a:2b:3c:4d"),
    (101, "00:1A:2B:3C:4D:5E"),
    (102, "00:1a:2b:3c:4d:5e"),
];

/// What the server says to one request.
fn serve(store: &mut OwnedStore, now: Duration, text: &str) -> Result<String, Box<dyn Error>> {
    let modem: HardwareAddress = match text.parse() {
        Ok(modem) => modem,
        Err(error) => return Ok(format!("{text}: no answer, {error}")),
    };
    Ok(match store.try_acquire_modem(now, modem, 1) {
        Ok(Decision::Acquired { .. }) => format!("{modem}: its configuration"),
        Ok(Decision::Retry { moment, .. }) => format!("{modem}: come back at {moment:?}"),
        Ok(other) => format!("{modem}: {other:?}"),
        Err(refusal @ Refusal::GroupAddress) => format!("{modem}: no answer, {refusal}"),
        Err(refusal) => return Err(refusal.into()),
    })
}

fn main() -> Result<(), Box<dyn Error>> {
    // One configuration in two seconds for each modem, at most two at once. Room for 100 modems.
    let rate = Rate::new(1, Duration::from_secs(2)).burst(2);
    let mut store = OwnedStore::new(Settings::new(rate, 100))?;
    for (second, text) in REQUESTS {
        let now = Duration::from_secs(second);
        println!("{second} s, {}", serve(&mut store, now, text)?);
    }

    // A transfer that never began is given back.
    let modem = HardwareAddress::new([0x00, 0x1a, 0x2b, 0x3c, 0x4d, 0x5e]);
    println!("{modem} known: {}", store.refund_modem(modem, 1)?);
    Ok(())
}
