//! Random settings, keys and moments of 01's domain.

use oracle::refusals::{LATEST_MOMENT, LONGEST_PERIOD};
use oracle::{Key, Rate, Shape};

use super::{MS, SECOND};
use crate::random::Random;

/// A shape: max keys and asked shards.
pub type Sizes = (u64, u64);

/// Caps 1, 2, 3, 9 and 33, one shard to 64, also asked for by numbers that get rounded.
pub const SMALL: [Sizes; 17] = [
    (0, 0),
    (1, 1),
    (2, 1),
    (3, 1),
    (9, 1),
    (33, 1),
    (40, 1),
    (2, 2),
    (5, 3),
    (18, 2),
    (6, 4),
    (66, 2),
    (20, 7),
    (16, 16),
    (33, 32),
    (64, 64),
    (130, 64),
];
/// Shapes in which crowds are made: also some with more items than the looks of one call.
pub const CROWDED: [Sizes; 10] = [
    (1, 1),
    (2, 1),
    (3, 1),
    (9, 1),
    (9, 1),
    (33, 1),
    (40, 1),
    (66, 2),
    (5, 3),
    (20, 2),
];
/// The largest shapes of document 01.
pub const LARGE: [Sizes; 4] = [(4_096, 1), (4_096, 64), (4_096, 0), (4_095, 2)];

/// Shapes that the shards are raised for: four of 8,193 keys, and four of 16,384.
pub const RAISED: [Sizes; 2] = [(32_769, 0), (65_536, 1)];

/// A rate in 01's domain.
pub fn rate(random: &mut Random) -> Rate {
    let (amount, period, burst) = rate_and_burst(random);
    let initial = random.pick(&[0, 1, burst / 2, burst, burst + 1, u64::from(u32::MAX)]);
    Rate {
        amount: amount as u32,
        period,
        burst: random.chance(85).then_some(burst as u32),
        initial: random.chance(35).then_some(initial as u32),
    }
}

/// Amount, period and burst: those of 01's examples, small ones, large ones, the ends of their ranges, and any.
fn rate_and_burst(random: &mut Random) -> (u64, u64, u64) {
    let most = 65_535;
    let ends = (&[1, most], &[1, LONGEST_PERIOD]);
    let r = random;
    match r.below(10) {
        0 | 1 => (2, SECOND, 4),
        2 => (r.within(1, 4), r.within(1, 12), r.within(1, 5)),
        3 => (r.within(60_000, most), SECOND, r.some_size(most)),
        4 => (r.pick(ends.0), r.pick(ends.1), r.pick(ends.0)),
        5 => (3, 10 * r.pick(&[1, MS, SECOND]), 4),
        6 => (
            r.some_size(most),
            r.some_size(LONGEST_PERIOD),
            r.some_size(most),
        ),
        7 => (
            r.within(1, 3),
            LONGEST_PERIOD - r.any_size(1 << 40),
            r.within(1, 9),
        ),
        8 => (r.within(1, 2_000), r.within(MS, 5 * MS), r.within(1, 6)),
        _ => (r.within(1, 10), r.within(MS, 10 * SECOND), r.within(1, 20)),
    }
}

/// A rate whose bucket takes long to be full, with room for many different costs.
pub fn slow_rate(random: &mut Random) -> Rate {
    let (amount, period) = (random.within(1, 10), random.within(MS, 10 * SECOND));
    let burst = random.within(30, 2_000);
    Rate {
        amount: amount as u32,
        period,
        burst: Some(burst as u32),
        initial: None,
    }
}

/// An idle time, or none.
pub fn idle(random: &mut Random, full: u64) -> Option<u64> {
    let any = random.any_size(u64::MAX);
    let times = [
        0,
        1,
        full,
        full + 1,
        full.saturating_sub(1),
        3 * MS,
        full.saturating_mul(3),
        any,
        u64::MAX,
    ];
    random.chance(55).then(|| random.pick(&times))
}

/// The keys of a trace: of a few shards, more than these hold, some with one hash. The key of only zeros is among them.
pub fn keys(random: &mut Random, shape: Shape) -> Vec<Key> {
    let shards: Vec<u64> = (0..random.within(1, 3))
        .map(|_| random.below(shape.shards))
        .collect();
    keys_of(random, shape, &shards)
}

/// The same of given shards.
pub fn keys_of(random: &mut Random, shape: Shape, shards: &[u64]) -> Vec<Key> {
    let each = match shape.cap {
        0..=100 => random.pick(&[
            shape.cap,
            shape.cap + 1,
            2 * shape.cap + 1,
            3 * shape.cap + 2,
            4 * shape.cap,
        ]),
        _ => 3 * shape.cap,
    };
    let shared = random.pick(if shape.cap > 50 {
        &[0, 0, 5, 5]
    } else {
        &[0, 20, 20, 60]
    });
    let mut keys: Vec<Key> = vec![Key { hash: 0, key: 0 }];
    while (keys.len() as u64) < each * shards.len() as u64 {
        let (next, any) = (keys.len() as u64, random.word());
        let number = random.pick(&[next, 0, 1, any]);
        if random.chance(shared) {
            let hash = random.pick(&keys).hash;
            keys.push(Key { hash, key: number });
            continue;
        }
        // The shard's bits are chosen, the others not.
        let (any, mask) = (random.word(), 63 << 40);
        let hash = random.pick(&[any, next]) & !mask | random.pick(shards) << 40;
        keys.push(Key { hash, key: number });
    }
    keys
}

/// The moment at which a trace starts.
pub fn start(random: &mut Random) -> u64 {
    match random.below(6) {
        0 => 0,
        1 => LATEST_MOMENT - random.any_size(1 << 61),
        2 => LATEST_MOMENT - random.any_size(SECOND),
        3 => 10 * SECOND,
        _ => random.any_size(LATEST_MOMENT),
    }
}
