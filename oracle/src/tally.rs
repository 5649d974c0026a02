//! How many tries of each key its bucket answered Retry: the count of 02, request 8. The published Rust keeps no such count. It is kept here, from the
//! Rust's answers.

use std::cell::RefCell;
use std::collections::HashMap;

use crate::key::Key;

/// The largest count. A larger word is read as this one.
const MOST: u64 = (1 << 32) - 1;

/// The counts of one shard, key by key. A key that is not in it has none. Each shard has a tally of its own, since loaded words may hold a key in several.
///
/// The tally does not see that a key loses its slot. It need not: only a try or a reservation of the key gives it a slot again, and before each of these
/// the limiter has a key without a slot forgotten.
#[derive(Default)]
pub(crate) struct Tally(RefCell<HashMap<Key, u64>>);

impl Tally {
    /// The word of a key's slot: as it was loaded, or counted since.
    pub(crate) fn word(&self, key: &Key) -> u64 {
        self.0.borrow().get(key).copied().unwrap_or(0)
    }

    /// The count of a key, as it is read.
    pub(crate) fn count(&self, key: &Key) -> u64 {
        self.word(key).min(MOST)
    }

    /// One more Retry of a key's bucket.
    pub(crate) fn add(&self, key: Key) {
        self.load(key, self.count(&key).saturating_add(1).min(MOST));
    }

    /// From now on a key's slot has this word, whatever it is.
    pub(crate) fn load(&self, key: Key, word: u64) {
        let _before = self.0.borrow_mut().insert(key, word);
    }

    /// Forgets the count of a key.
    pub(crate) fn forget(&self, key: &Key) {
        let _count = self.0.borrow_mut().remove(key);
    }

    /// Forgets all counts.
    pub(crate) fn clear(&self) {
        self.0.borrow_mut().clear();
    }
}
