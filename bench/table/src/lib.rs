//! The calls of `HashTable` that the published store makes, over hashbrown's raw table. Later versions of hashbrown have `HashTable`
//! itself, which is the same thin layer.

use debian::raw::{Bucket, RawTable};

/// A table of values that are found by their hash and a test.
pub struct HashTable<T> {
    raw: RawTable<T>,
}

impl<T> Default for HashTable<T> {
    fn default() -> Self {
        Self::new()
    }
}

impl<T> HashTable<T> {
    /// An empty table.
    #[must_use]
    pub const fn new() -> Self {
        Self {
            raw: RawTable::new(),
        }
    }

    /// A value put in under `hash` that passes `eq`.
    #[inline]
    pub fn find(&self, hash: u64, eq: impl FnMut(&T) -> bool) -> Option<&T> {
        self.raw.get(hash, eq)
    }

    /// The same, to be changed.
    #[inline]
    pub fn find_mut(&mut self, hash: u64, eq: impl FnMut(&T) -> bool) -> Option<&mut T> {
        self.raw.get_mut(hash, eq)
    }

    /// The same, to be removed.
    ///
    /// # Errors
    ///
    /// When there is no such value.
    #[inline]
    pub fn find_entry(
        &mut self,
        hash: u64,
        eq: impl FnMut(&T) -> bool,
    ) -> Result<OccupiedEntry<'_, T>, AbsentEntry> {
        match self.raw.find(hash, eq) {
            Some(bucket) => Ok(OccupiedEntry {
                table: self,
                bucket,
            }),
            None => Err(AbsentEntry),
        }
    }

    /// Puts `value` in under `hash` without looking for an equal one.
    #[inline]
    pub fn insert_unique(
        &mut self,
        hash: u64,
        value: T,
        hasher: impl Fn(&T) -> u64,
    ) -> OccupiedEntry<'_, T> {
        let bucket = self.raw.insert(hash, value, hasher);
        OccupiedEntry {
            table: self,
            bucket,
        }
    }
}

/// The oracle's calls for places, so that its files build over this table too. A benchmark makes none of them, and this table has no places.
impl<T> HashTable<T> {
    /// An empty table.
    #[must_use]
    pub const fn with_places(_size: usize) -> Self {
        Self::new()
    }

    /// A table with these values, each under its hash.
    #[must_use]
    pub fn placed(rows: Vec<Option<(u64, T)>>) -> Option<Self> {
        let mut raw = RawTable::with_capacity(rows.len());
        for (hash, value) in rows.into_iter().flatten() {
            let _bucket = raw.insert(hash, value, |_| unreachable!("the table has room for all"));
        }
        Some(Self { raw })
    }

    /// No place.
    pub fn places(&self) -> impl Iterator<Item = Option<&T>> {
        core::iter::empty()
    }
}

/// A value in the table.
pub struct OccupiedEntry<'a, T> {
    table: &'a mut HashTable<T>,
    bucket: Bucket<T>,
}

impl<T> OccupiedEntry<'_, T> {
    /// Takes the value out.
    #[inline]
    pub fn remove(self) -> (T, VacantEntry) {
        // SAFETY: the bucket is one of the table, which has been borrowed since it was found, so it is full still.
        let value = unsafe { self.table.raw.remove(self.bucket) };
        (value, VacantEntry)
    }
}

/// The place that a removed value left; the store does nothing with it.
pub struct VacantEntry;

/// There was no such value.
pub struct AbsentEntry;
