//! The conversions between the first layout of the words and the present one, written from request 14 of 02. Lengths and settings are right here; the words may
//! be any. This file knows nothing of the crate that it is in: bindings/rust/tests/converter.rs reads it too.

/// Refused as 5: a count over the cap, an index or a total that is not as a grown store has it.
pub const MEMORY: u64 = 5;
/// Refused as 18: two slots of one hash and key, or two debts of one hash.
pub const TWINS: u64 = 18;
/// Refused as 19: a word past a count is not 0.
pub const USED_PAST: u64 = 19;

/// A small number, as a place.
pub fn at(word: u64) -> usize {
    usize::try_from(word).expect("a place")
}

/// A store's shards and the keys of each.
#[derive(Clone, Copy)]
pub struct Shape {
    /// The shards.
    pub shards: usize,
    /// The slots that each has room for, and the debts.
    pub cap: usize,
}

impl Shape {
    /// The words of the first layout.
    pub const fn old_words(self) -> usize {
        self.shards * (5 + 8 * self.cap)
    }

    /// The words of the present layout.
    pub const fn new_words(self) -> usize {
        1 + self.shards * (5 + 13 * self.cap)
    }

    /// The words of one shard.
    fn old_part(self, words: &[u64], shard: usize) -> &[u64] {
        let size = 5 + 8 * self.cap;
        &words[shard * size..][..size]
    }

    fn present_part(self, words: &[u64], shard: usize) -> &[u64] {
        let size = 5 + 13 * self.cap;
        &words[1 + shard * size..][..size]
    }
}

/// One shard, read from words with so many words a slot.
struct Shard {
    head: [u64; 3],
    slots: Vec<Vec<u64>>,
    debts_head: [u64; 2],
    debts: Vec<[u64; 2]>,
}

fn shard(words: &[u64], cap: usize, width: usize) -> Shard {
    let ledger = 3 + width * cap;
    Shard {
        head: [words[0], words[1], words[2]],
        slots: words[3..ledger]
            .chunks(width)
            .map(<[u64]>::to_vec)
            .collect(),
        debts_head: [words[ledger], words[ledger + 1]],
        debts: (0..cap)
            .map(|i| [words[ledger + 2 + 2 * i], words[ledger + 3 + 2 * i]])
            .collect(),
    }
}

impl Shard {
    fn counts(&self) -> (usize, usize) {
        (at(self.head[0]), at(self.debts_head[0]))
    }

    const fn count_over(&self, cap: usize) -> bool {
        self.head[0] > cap as u64 || self.debts_head[0] > cap as u64
    }

    fn twins(&self) -> bool {
        let (slots, debts) = self.counts();
        let slot = |i: usize| (self.slots[i][0], self.slots[i][1]);
        let debt = |i: usize| self.debts[i][0];
        (0..slots).any(|i| (0..i).any(|j| slot(i) == slot(j)))
            || (0..debts).any(|i| (0..i).any(|j| debt(i) == debt(j)))
    }

    fn used_past(&self) -> bool {
        let (slots, debts) = self.counts();
        self.slots[slots..].iter().flatten().any(|&word| word != 0)
            || self.debts[debts..].iter().flatten().any(|&word| word != 0)
    }

    /// The places of an index of some hashes, added in order.
    fn index(hashes: &[u64], cap: usize) -> Vec<u64> {
        let places = 2 * cap;
        let mut index = vec![0; places];
        for (item, hash) in hashes.iter().enumerate() {
            let mut place = at(hash % places as u64);
            while index[place] != 0 {
                place = (place + 1) % places;
            }
            index[place] = item as u64 + 1;
        }
        index
    }

    fn hashes(&self) -> (Vec<u64>, Vec<u64>) {
        let (slots, debts) = self.counts();
        (
            self.slots[..slots].iter().map(|slot| slot[0]).collect(),
            self.debts[..debts].iter().map(|debt| debt[0]).collect(),
        )
    }
}

/// Is an index as a grown store has it: each item stands in it once, with no empty place between its home and its own, and nothing else does?
fn exact(index: &[u64], hashes: &[u64]) -> bool {
    let places = index.len();
    let used = index.iter().filter(|&&word| word != 0).count();
    used == hashes.len()
        && hashes.iter().enumerate().all(|(item, hash)| {
            let mut place = at(hash % places as u64);
            for _ in 0..places {
                if index[place] == item as u64 + 1 {
                    return true;
                }
                if index[place] == 0 {
                    return false;
                }
                place = (place + 1) % places;
            }
            false
        })
}

/// The first refusal of some shards.
fn refusal(shards: &[Shard], damaged: bool) -> Result<(), u64> {
    if damaged {
        return Err(MEMORY);
    }
    if shards.iter().any(Shard::twins) {
        return Err(TWINS);
    }
    if shards.iter().any(Shard::used_past) {
        return Err(USED_PAST);
    }
    Ok(())
}

/// What the target becomes, from the first layout to the present one; or the number of the refusal.
pub fn forth(shape: Shape, source: &[u64]) -> Result<Vec<u64>, u64> {
    let shards: Vec<_> = (0..shape.shards)
        .map(|i| shard(shape.old_part(source, i), shape.cap, 6))
        .collect();
    refusal(&shards, shards.iter().any(|s| s.count_over(shape.cap)))?;
    let mut words = vec![shards.iter().map(|s| s.head[0]).sum()];
    for s in &shards {
        words.extend(s.head);
        for slot in &s.slots {
            words.extend(slot);
            words.push(0);
        }
        words.extend(s.debts_head);
        words.extend(s.debts.iter().flatten());
        let (slots, debts) = s.hashes();
        words.extend(Shard::index(&slots, shape.cap));
        words.extend(Shard::index(&debts, shape.cap));
    }
    Ok(words)
}

/// What the target becomes, from the present layout to the first one; or the number of the refusal.
pub fn back(shape: Shape, source: &[u64]) -> Result<Vec<u64>, u64> {
    let parts: Vec<_> = (0..shape.shards)
        .map(|i| shape.present_part(source, i))
        .collect();
    let shards: Vec<_> = parts.iter().map(|part| shard(part, shape.cap, 7)).collect();
    let over = shards.iter().any(|s| s.count_over(shape.cap));
    let inexact = || {
        parts.iter().zip(&shards).any(|(part, s)| {
            let (slots, debts) = s.hashes();
            let (first, second) = part[5 + 9 * shape.cap..].split_at(2 * shape.cap);
            !exact(first, &slots) || !exact(second, &debts)
        })
    };
    let total =
        || shards.iter().map(|s| u128::from(s.head[0])).sum::<u128>() != u128::from(source[0]);
    refusal(&shards, over || inexact() || total())?;
    let mut words = Vec::new();
    for s in &shards {
        words.extend(s.head);
        for slot in &s.slots {
            words.extend(&slot[..6]);
        }
        words.extend(s.debts_head);
        words.extend(s.debts.iter().flatten());
    }
    Ok(words)
}
