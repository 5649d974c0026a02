//! What a plan makes of its table of classes: calls with it, what they are given, and the words of the buckets.

use std::rc::Rc;

use oracle::Key;

use super::Plan;
use super::domain::rate;
use super::tables::{self, AMOUNT, PERIOD, Rates, burst, parent};
use crate::call::Call;
use crate::given::Given;
use crate::library;
use crate::random::Random;
use crate::rules::classes::{BUCKET_WORDS, LONGEST_CHAIN, TABLE_WORDS};

impl Plan {
    /// The plan with a table, through which so many of a hundred tries go.
    pub(super) fn with_table(mut self, random: &mut Random, rates: Rates, through: u64) -> Self {
        let own = self.settings.rate.unwrap_or_else(|| rate(random));
        let rows = tables::table(random, rates, &own);
        self.table = tables::words(random, &rows);
        self.through = through;
        self
    }

    /// Another table of as many classes. The number of the plan's classes stays.
    pub fn change_table(&mut self, random: &mut Random) {
        let own = self.settings.rate.unwrap_or_else(|| rate(random));
        let rows = tables::table_of(random, self.classes(), Rates::Mixed, &own);
        self.table = tables::words(random, &rows);
    }

    /// How many classes the table has.
    pub fn classes(&self) -> usize {
        self.table.len() / TABLE_WORDS
    }

    /// The words of a class in the table.
    fn row(&self, class: usize) -> &[u64] {
        &self.table[class * TABLE_WORDS..][..TABLE_WORDS]
    }

    /// The class that a try names: of the table, mostly one with a long chain; and now and then not of the table.
    fn class(&self, random: &mut Random) -> u64 {
        let (count, any) = (self.classes() as u64, random.word());
        let some = [0; 4].map(|_| random.below(count));
        if random.chance(2) {
            return random.pick(&[count, count + 1, u64::MAX, 1 << 32 | some[0], any]);
        }
        let few = random.pick(&[1, 4]);
        let longest = some[..few].iter().max_by_key(|&&class| self.chain(class));
        longest.copied().unwrap_or(0)
    }

    /// How many classes the chain of a class has, as far as its parents are in the table and up to one more than is accepted.
    fn chain(&self, class: u64) -> usize {
        let above = |&class: &u64| {
            let above = parent(self.row(class as usize));
            above.filter(|&above| above < self.classes() as u64)
        };
        core::iter::successors(Some(class), above)
            .take(LONGEST_CHAIN + 1)
            .count()
    }

    /// A try as the plan has it: through a class, or not.
    pub(super) fn try_(&self, random: &mut Random, (now, key, cost): (u64, Key, u32)) -> Call {
        if self.classes() == 0 || !random.chance(self.through) {
            return Call::Try { now, key, cost };
        }
        Call::Through {
            now,
            key,
            class: self.class(random),
            cost,
        }
    }

    /// A clear: with the table, mostly, if there is one.
    pub(super) fn clear(&self, random: &mut Random) -> Call {
        let with_table = if self.classes() == 0 { 30 } else { 85 };
        if random.chance(with_table) {
            Call::ClassClear
        } else {
            Call::Clear
        }
    }

    /// The set-up that a trace of the plan begins with.
    pub fn set_up(&self, random: &mut Random) -> Call {
        if self.classes() == 0 && random.chance(70) {
            Call::SetUp
        } else {
            Call::ClassSetUp
        }
    }

    /// What a call of the plan is given. The number of classes in the settings is any where it is not read.
    pub fn given(&self, random: &mut Random, call: &Call) -> Given {
        let mut raw = library::given(&self.settings, random);
        let (count, any) = (self.classes() as u32, random.word() as u32);
        raw.classes = match call {
            Call::SetUp
            | Call::Clear
            | Call::ClassSetUp
            | Call::ClassClear
            | Call::Through { .. } => random.pick(&[count, 0, 1, 64, 65, u32::MAX, any]),
            _ => count,
        };
        let table = Rc::clone(&self.table);
        Given { raw, table }
    }

    /// The words of the buckets of the classes, sound or not.
    pub(super) fn buckets(&self, random: &mut Random) -> Vec<u64> {
        let rows = self.table.chunks_exact(TABLE_WORDS);
        let mut words = Vec::new();
        for row in rows {
            words.extend(self.bucket_of(random, row[PERIOD].saturating_mul(burst(row))));
        }
        words
    }

    /// Shortfall and stamp of a class whose bucket has so many parts: full, owing, beyond empty, stamped in the future, or any words.
    fn bucket_of(&self, random: &mut Random, parts: u64) -> [u64; BUCKET_WORDS] {
        let (any, some) = (random.word(), random.within(0, parts));
        let most = parts.saturating_add(1 << 62);
        let beyond = random.within(parts, parts.saturating_mul(3));
        let shortfalls = [
            0,
            0,
            some,
            some,
            some,
            beyond,
            u64::MAX,
            most,
            most.saturating_add(1),
            any,
        ];
        let near = random.within(0, self.spans.full);
        let before = self.now.saturating_sub(near);
        let after = self.now.saturating_add(near);
        let stamps = [
            self.now,
            self.now,
            before,
            before,
            after,
            u64::MAX,
            u64::MAX - near,
            any,
        ];
        [random.pick(&shortfalls), random.pick(&stamps)]
    }

    /// Some words of buckets become any numbers.
    pub(super) fn damage_buckets(&self, random: &mut Random, words: &mut [u64]) {
        let classes = &mut words[self.shape.words()..];
        for _ in 0..random.pick(&[0, 1, 3]) {
            if !classes.is_empty() {
                let place = random.below(classes.len() as u64) as usize;
                classes[place] = random.pick(&[0, 1, self.now, 1 << 62, u64::MAX]);
            }
        }
    }

    /// A moment at which the bucket of a class turns: its stamp, or when it has the next token, or is full.
    pub(super) fn class_turn(&self, random: &mut Random, words: &[u64]) -> u64 {
        let class = random.below(self.classes() as u64) as usize;
        let row = self.row(class);
        let at = self.shape.words() + class * BUCKET_WORDS;
        let (shortfall, stamp, amount) = (words[at], words[at + 1], row[AMOUNT].max(1));
        let room = row[PERIOD].saturating_mul(burst(row).saturating_sub(1));
        let next = shortfall.saturating_sub(room).div_ceil(amount);
        let full = shortfall.div_ceil(amount);
        stamp.saturating_add(random.pick(&[0, next, next, full]))
    }
}
