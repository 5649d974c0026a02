//! An index by hash: request 3 of 02.
//!
//! An index has so many places, each 0 or the number of an item, from 0, plus 1. A hash's walk goes over the places from its home on, round, up to the first
//! empty one and at most once round. In damaged memory a place may name no item, two may name the same, and none may be empty.

use crate::branches::{Branch, Hits};

/// An index, the hashes of the items that it is for, and how many these are.
pub struct Index<'a, H: Fn(usize) -> u64> {
    pub places: &'a mut [u64],
    pub count: usize,
    pub hash_of: H,
    pub hits: &'a mut Hits,
}

/// The places from one on, round: each once.
fn round(size: usize, from: usize) -> impl Iterator<Item = usize> {
    (from..size).chain(0..from)
}

impl<H: Fn(usize) -> u64> Index<'_, H> {
    /// The place at which a hash's walk begins.
    fn home(&self, hash: u64) -> usize {
        (hash % self.places.len() as u64) as usize
    }

    /// The places on a hash's walk that are in use.
    fn walk(&self, hash: u64) -> impl Iterator<Item = usize> {
        round(self.places.len(), self.home(hash)).take_while(|&place| self.places[place] != 0)
    }

    /// The empty place at which a hash's walk ends, if it ends at one.
    fn end(&self, hash: u64) -> Option<usize> {
        round(self.places.len(), self.home(hash)).find(|&place| self.places[place] == 0)
    }

    /// The item that a word names, if it names one.
    fn item(&self, word: u64) -> Option<usize> {
        let number = usize::try_from(word.checked_sub(1)?).ok()?;
        (number < self.count).then_some(number)
    }

    /// The first place on an item's walk that names it.
    fn place_of(&self, item: usize) -> Option<usize> {
        let hash = (self.hash_of)(item);
        self.walk(hash)
            .find(|&place| self.item(self.places[place]) == Some(item))
    }

    /// Lookup: the first item on a hash's walk that is sought.
    pub fn find(&mut self, hash: u64, sought: impl Fn(usize) -> bool) -> Option<usize> {
        let named = |place: usize| self.item(self.places[place]);
        let found = self
            .walk(hash)
            .find(|&place| named(place).is_some_and(&sought));
        let item = found.and_then(named);
        self.tell_lookup(hash, found);
        item
    }

    /// Adds an item: it is named at the empty place that its hash's walk ends at. If there is no empty place, no place gets to name it.
    pub fn add(&mut self, hash: u64, item: usize) {
        let end = self.end(hash);
        self.hits
            .either(end.is_some(), (Branch::AddPlace, Branch::AddNoPlace));
        if let Some(place) = end {
            self.places[place] = item as u64 + 1;
        }
    }

    /// Removes an item, while all items still stand where they did. Last of all, the last item, which is to move into the gap, gets the number that comes free.
    pub fn remove(&mut self, item: usize) {
        match self.place_of(item) {
            Some(place) => self.empty(place, item),
            None => self.hits.hit(Branch::GoneUnnamed),
        }
        let last = self.count - 1;
        if item != last {
            self.renumber(last, item);
        }
    }

    /// Empties the place of an item that goes. One by one, up to the first that is met empty, the other places after it are emptied too, and their items added
    /// again.
    /// The item that goes counts among the items until it is gone: named once more, it is added again.
    fn empty(&mut self, place: usize, gone: usize) {
        self.places[place] = 0;
        for other in round(self.places.len(), place).skip(1) {
            let word = core::mem::take(&mut self.places[other]);
            if word == 0 {
                self.hits.hit(Branch::GoneUpToEmpty);
                return;
            }
            let Some(item) = self.item(word) else {
                self.hits.hit(Branch::GoneNoItem);
                continue;
            };
            self.hits
                .either(item == gone, (Branch::GoneAgain, Branch::GoneAddedAgain));
            self.add((self.hash_of)(item), item);
        }
        self.hits.hit(Branch::GoneAllRound);
    }

    /// The first place on an item's walk that names it gets another number.
    fn renumber(&mut self, item: usize, number: usize) {
        match self.place_of(item) {
            Some(place) => {
                self.hits.hit(Branch::Renumbered);
                self.places[place] = number as u64 + 1;
            }
            None => self.hits.hit(Branch::RenumberedNowhere),
        }
    }

    /// Which branches a lookup took that stopped at a place, or found nothing.
    fn tell_lookup(&mut self, hash: u64, found: Option<usize>) {
        let (home, end) = (self.home(hash), self.end(hash));
        let over = self
            .walk(hash)
            .take_while(|&place| Some(place) != found)
            .any(|place| self.item(self.places[place]).is_none());
        if over {
            self.hits.hit(Branch::LookedOver);
        }
        match (found, end) {
            (Some(place), _) if place == home => self.hits.hit(Branch::LookedHome),
            (Some(_), _) => self.hits.hit(Branch::LookedOn),
            (None, Some(_)) => self.hits.hit(Branch::LookedToEmpty),
            (None, None) => self.hits.hit(Branch::LookedAllRound),
        }
        if found.or(end).is_some_and(|place| place < home) {
            self.hits.hit(Branch::LookedRound);
        }
    }
}
