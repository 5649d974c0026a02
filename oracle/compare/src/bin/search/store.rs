//! A store of our library, and the modems that ask it.

use limiter_sys::{
    LIMITER_DONE, LimiterClass, LimiterReply, LimiterSettings, classes, limiter_words, modem,
    slices,
};

use crate::random::Random;

/// A modem: its address, and what the library makes of it.
#[derive(Clone, Copy)]
pub struct Modem {
    address: [u8; 6],
    pub hash: u64,
    pub key: u64,
}

impl Modem {
    /// The modem of this number.
    pub fn new(number: u8) -> Self {
        let address = [2, 0, 0, 0, 0, number];
        let identity = modem::identity(&address);
        assert_eq!(identity.code, LIMITER_DONE, "{address:?} is no address");
        Self {
            address,
            hash: identity.hash,
            key: identity.key,
        }
    }
}

/// What a call asks of a modem.
#[derive(Clone, Copy)]
pub enum Deed {
    Try { now: u64, cost: u32 },
    Through { now: u64, class: u64, cost: u32 },
    Reserve { now: u64, cost: u32, max_wait: u64 },
    Refund { cost: u32 },
}

/// How many classes a store has, if it has any: a node, and the hub above it.
const CLASSES: u32 = 2;

/// Words that are lent to the library, with their settings and the words of their class table.
#[derive(Clone)]
pub struct Store {
    pub settings: LimiterSettings,
    table: Vec<u64>,
    words: Vec<u64>,
}

impl Store {
    /// A fresh store with a small rate, with room for one or two modems, under `RefuseNew`. Some have classes.
    pub fn new(random: &mut Random) -> Self {
        let burst = random.within(1, 6) as u32;
        let settings = LimiterSettings {
            period: random.pick(&[1, 2, 3, 7, 10, 1_000_000_000]),
            max_keys: random.within(1, 2),
            shards: 1,
            amount: random.within(1, 5) as u32,
            has_burst: 1,
            burst,
            has_initial: u32::from(random.chance(20)),
            initial: random.below(u64::from(burst) + 1) as u32,
            has_idle: u32::from(random.chance(20)),
            idle: random.within(1, 30),
            classes: if random.chance(40) { CLASSES } else { 0 },
            ..LimiterSettings::default()
        };
        let table =
            (0..settings.classes).flat_map(|number| class(random, &settings, number).words());
        let table: Vec<_> = table.collect();
        let words = vec![1; limiter_words(settings) as usize];
        let mut store = Self {
            settings,
            table,
            words,
        };
        let reply = classes::set_up(settings, &store.table, &mut store.words);
        assert_eq!(reply.code, LIMITER_DONE, "set-up of {settings:?}");
        store
    }

    /// The answer to a deed, asked by key or by address. A try through a class is asked by key.
    pub fn ask(&mut self, who: &Modem, by_address: bool, deed: Deed) -> LimiterReply {
        let (s, words, Modem { address, hash, key }) = (self.settings, &mut self.words, *who);
        match (deed, by_address) {
            (Deed::Try { now, cost }, false) => slices::try_acquire(s, words, now, hash, key, cost),
            (Deed::Try { now, cost }, true) => modem::try_acquire(s, words, now, &address, cost),
            (Deed::Through { now, class, cost }, _) => {
                classes::try_acquire(s, &self.table, words, now, hash, key, class, cost)
            }
            (
                Deed::Reserve {
                    now,
                    cost,
                    max_wait,
                },
                false,
            ) => slices::reserve(s, words, now, hash, key, cost, max_wait),
            (
                Deed::Reserve {
                    now,
                    cost,
                    max_wait,
                },
                true,
            ) => modem::reserve(s, words, now, &address, cost, max_wait),
            (Deed::Refund { cost }, false) => slices::refund(s, words, hash, key, cost),
            (Deed::Refund { cost }, true) => modem::refund(s, words, &address, cost),
        }
    }

    /// The class table as comments of a trace.
    pub fn table_lines(&self) -> String {
        let classes = self.table.chunks(classes::CLASS_WORDS).enumerate();
        classes
            .map(|(number, words)| format!("# class {number}: {words:?}\n"))
            .collect()
    }

    /// The tokens that a modem has.
    pub fn available(&self, who: &Modem, now: u64) -> u32 {
        slices::available(self.settings, &self.words, now, who.hash, who.key).number as u32
    }

    /// Whether a modem has a slot: whether its removal, from a copy, leaves one slot less.
    pub fn has_slot(&self, who: &Modem) -> bool {
        let mut copy = self.clone();
        slices::remove(copy.settings, &mut copy.words, who.hash, who.key);
        copy.length() < self.length()
    }

    fn length(&self) -> u64 {
        slices::length(self.settings, &self.words).number
    }
}

/// The class of this number, with a rate from that of the modems up, so that it lets many tries pass. The last one is above the others.
fn class(random: &mut Random, s: &LimiterSettings, number: u32) -> LimiterClass {
    LimiterClass {
        amount: random.within(1, 4) * u64::from(s.amount),
        period: s.period,
        has_burst: 1,
        burst: random.within(1, 4) * u64::from(s.burst),
        has_parent: u64::from(number + 1 < CLASSES),
        parent: u64::from(CLASSES - 1),
    }
}
