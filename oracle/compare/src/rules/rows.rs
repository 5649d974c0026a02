//! The items of one kind in a shard, slots or debts: what 01 says of both alike, and 02 of their indexes.

use core::ops::Range;

use oracle::layout::{self, Items, slot};

use super::index::Index;
use crate::branches::{Branch, Hits};

/// The items, in the words of their shard, and where their index lies.
pub struct Rows<'a> {
    pub words: &'a mut [u64],
    pub items: Items,
    pub index: Range<usize>,
    pub hits: &'a mut Hits,
}

/// The word of an item that has its hash: the first, of slots and of debts.
const HASH: usize = 0;

/// What a removal leaves: the item was the last, or the last one fills its place.
#[derive(PartialEq, Eq, Clone, Copy)]
pub enum Gap {
    Last,
    Filled,
}

/// Which branches a sweep takes: no items at all, none left, the cursor goes round, an item goes and was the last or not.
pub struct SweepBranches {
    pub none: Branch,
    pub emptied: Branch,
    pub round: Branch,
    pub gone: (Branch, Branch),
}

impl Rows<'_> {
    /// How many there are.
    pub fn count(&self) -> usize {
        self.words[self.items.count] as usize
    }

    /// The words of one.
    pub fn item(&mut self, place: usize) -> &mut [u64] {
        &mut self.words[self.items.item(place)]
    }

    /// The items, to be read, and their index. It lies after them.
    fn parts(&mut self) -> (&[u64], Index<'_, impl Fn(usize) -> u64>) {
        let (count, items) = (self.count(), self.items);
        let (before, from) = self.words.split_at_mut(self.index.start);
        let before: &[u64] = before;
        let index = Index {
            places: &mut from[..self.index.len()],
            count,
            hash_of: move |place| before[items.item(place)][HASH],
            hits: self.hits,
        };
        (before, index)
    }

    /// The place of an item of this hash that is looked for, by the index.
    pub fn position(&mut self, hash: u64, sought: impl Fn(&[u64]) -> bool) -> Option<usize> {
        let items = self.items;
        let (words, mut index) = self.parts();
        index.find(hash, |place| sought(&words[items.item(place)]))
    }

    /// Whether there is such an item, wherever it is.
    pub fn any(&self, sought: impl Fn(&[u64]) -> bool) -> bool {
        (0..self.count()).any(|place| sought(&self.words[self.items.item(place)]))
    }

    /// Adds one, last.
    pub fn push(&mut self, item: &[u64]) {
        let place = self.count();
        self.parts().1.add(item[HASH], place);
        self.item(place).copy_from_slice(item);
        self.words[self.items.count] += 1;
    }

    /// Removes one, first from the index: the last moves into the gap, and the place that comes free is zeroed.
    pub fn remove_at(&mut self, place: usize) -> Gap {
        self.parts().1.remove(place);
        let last = self.count() - 1;
        self.tell_counts(place, last);
        self.words
            .copy_within(self.items.item(last), self.items.at(place));
        self.item(last).fill(0);
        self.words[self.items.count] -= 1;
        if place == last {
            Gap::Last
        } else {
            Gap::Filled
        }
    }

    /// Whether a slot's count of tries turned away goes, and whether one moves: it goes and moves with its slot.
    fn tell_counts(&mut self, gone: usize, moved: usize) {
        if self.items != layout::SLOTS {
            return;
        }
        if self.item(gone)[slot::TURNED_AWAY] > 0 {
            self.hits.hit(Branch::CountGone);
        }
        if gone != moved && self.item(moved)[slot::TURNED_AWAY] > 0 {
            self.hits.hit(Branch::CountMoved);
        }
    }

    /// Where a hand, sweep or cursor looks: at or past the count it reads as 0, and 0 is stored.
    pub fn look(&mut self, cursor: usize, round: Branch) -> usize {
        let (at, count) = (self.words[cursor], self.count() as u64);
        if at >= count {
            // A count of one turns every second look back; only a turn within a list says something.
            if at == count && count > 1 {
                self.hits.hit(round);
            }
            self.words[cursor] = 0;
        }
        self.words[cursor] as usize
    }

    /// A sweep: so many looks from the cursor, fewer only once nothing is left. What goes is removed, and the same place looked at next;
    /// else the cursor goes on.
    pub fn sweep(
        &mut self,
        cursor: usize,
        looks: usize,
        branches: &SweepBranches,
        mut goes: impl FnMut(&mut [u64], &mut Hits) -> bool,
    ) {
        if self.count() == 0 {
            self.hits.hit(branches.none);
            return;
        }
        for _ in 0..looks {
            if self.count() == 0 {
                self.hits.hit(branches.emptied);
                return;
            }
            let place = self.look(cursor, branches.round);
            if goes(&mut self.words[self.items.item(place)], self.hits) {
                let gap = self.remove_at(place);
                self.hits.either(gap == Gap::Last, branches.gone);
            } else {
                self.words[cursor] += 1;
            }
        }
    }
}
