//! Bytes held, by a global allocator that counts them.

use std::alloc::{GlobalAlloc, Layout, System};
use std::sync::atomic::{AtomicUsize, Ordering};

use crate::scenario::known::fitting;
use crate::scenario::rows::SIZES;
use crate::scenario::{self, Call, Classes, Hash, Setup};
use crate::sides::{CCall, Rust, Side, drive};

/// The system's allocator, counting what is held.
pub struct Counting;

static HELD: AtomicUsize = AtomicUsize::new(0);

// SAFETY: every call goes on to the system's allocator as it stands.
unsafe impl GlobalAlloc for Counting {
    unsafe fn alloc(&self, layout: Layout) -> *mut u8 {
        HELD.fetch_add(layout.size(), Ordering::Relaxed);
        // SAFETY: see above.
        unsafe { System.alloc(layout) }
    }

    unsafe fn dealloc(&self, at: *mut u8, layout: Layout) {
        HELD.fetch_sub(layout.size(), Ordering::Relaxed);
        // SAFETY: see above.
        unsafe { System.dealloc(at, layout) }
    }
}

/// Bytes for each key of ours and of the Rust's, with full slots, and with full slots and ledgers.
struct Bytes {
    ours: f64,
    slots: f64,
    ledgers: f64,
}

/// Prints the table.
pub fn print() {
    println!("| bytes a modem | ours | Rust, slots full | Rust, slots and ledgers full |");
    println!("|---|---:|---:|---:|");
    for (max_keys, shards) in SIZES {
        let bytes = per_key(max_keys, shards);
        println!(
            "| {max_keys} keys, shards {shards} | {:.1} | {:.1} | {:.1} |",
            bytes.ours, bytes.slots, bytes.ledgers
        );
    }
}

fn per_key(max_keys: usize, shards: usize) -> Bytes {
    let setup = Setup {
        amount: 1,
        burst: 1_000,
        max_keys,
        shards,
        idle: None,
        forget_debt: true,
        classes: Classes::NONE,
    };
    let keys = fitting(&setup, max_keys, Hash::Fnv1a);
    let full: Vec<Call> = keys
        .iter()
        .map(|&key| scenario::try_(0, key, 1_000))
        .collect();
    let flood = (1 << 32..)
        .take(20 * max_keys)
        .map(|n| scenario::try_(1, Hash::Fnv1a.key(n), 1_000));
    let flood: Vec<Call> = flood.collect();
    Bytes {
        ours: held_by::<CCall>(&setup, &[&full]) / max_keys as f64,
        slots: held_by::<Rust>(&setup, &[&full]) / max_keys as f64,
        ledgers: held_by::<Rust>(&setup, &[&full, &flood]) / max_keys as f64,
    }
}

/// The bytes that a side holds after some calls.
fn held_by<S: Side>(setup: &Setup, calls: &[&[Call]]) -> f64 {
    let before = HELD.load(Ordering::Relaxed);
    let mut side = S::new(setup);
    for calls in calls {
        drive(&mut side, calls);
    }
    (HELD.load(Ordering::Relaxed) - before) as f64
}
