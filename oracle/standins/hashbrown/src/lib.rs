//! Stand-in for the `hashbrown` package: the calls of `HashTable` that the store makes, over the standard library's map.
//!
//! The table holds values under hashes; several values may share a hash. The map underneath uses the hash as it stands. A table that is given
//! places keeps its values in them too, as request 3 of 02 says; they are shown, and nothing is found by them.

#[cfg(feature = "places")]
mod places;

#[cfg(not(feature = "places"))]
#[path = "no_places.rs"]
mod places;

use core::hash::{BuildHasherDefault, Hasher};
use std::collections::HashMap;

use places::{Name, Placed, Places};

/// A value, and the number by which a place knows it.
#[derive(Debug)]
struct Held<T> {
    name: Name,
    value: T,
}

/// The values of one hash: the first in place, others (only when hashes are shared) in a list.
#[derive(Debug)]
struct Group<T> {
    first: Held<T>,
    others: Vec<Held<T>>,
}

impl<T> Group<T> {
    fn place(&self, mut eq: impl FnMut(&Held<T>) -> bool) -> Option<usize> {
        if eq(&self.first) {
            return Some(0);
        }
        self.others.iter().position(eq).map(|place| place + 1)
    }

    fn at(&self, place: usize) -> &T {
        if place == 0 {
            &self.first.value
        } else {
            &self.others[place - 1].value
        }
    }

    fn at_mut(&mut self, place: usize) -> &mut T {
        if place == 0 {
            &mut self.first.value
        } else {
            &mut self.others[place - 1].value
        }
    }
}

/// Hands the number it is given through as the hash.
#[derive(Default)]
struct AsItStands(u64);

impl Hasher for AsItStands {
    fn finish(&self) -> u64 {
        self.0
    }

    fn write(&mut self, _bytes: &[u8]) {
        unreachable!("the map's keys are u64");
    }

    fn write_u64(&mut self, hash: u64) {
        self.0 = hash;
    }
}

/// A table of values that are found by their hash and a test.
#[derive(Debug)]
pub struct HashTable<T> {
    groups: HashMap<u64, Group<T>, BuildHasherDefault<AsItStands>>,
    places: Places,
}

impl<T> Default for HashTable<T> {
    fn default() -> Self {
        Self::new()
    }
}

/// The published calls.
impl<T> HashTable<T> {
    /// An empty table, without places.
    #[must_use]
    pub fn new() -> Self {
        Self::with_places(0)
    }

    /// A value put in under `hash` that passes `eq`.
    #[inline]
    pub fn find(&self, hash: u64, mut eq: impl FnMut(&T) -> bool) -> Option<&T> {
        let group = self.groups.get(&hash)?;
        let place = group.place(|held| eq(&held.value));
        place.map(|place| group.at(place))
    }

    /// The same, to be changed.
    #[inline]
    pub fn find_mut(&mut self, hash: u64, mut eq: impl FnMut(&T) -> bool) -> Option<&mut T> {
        let group = self.groups.get_mut(&hash)?;
        let place = group.place(|held| eq(&held.value));
        place.map(|place| group.at_mut(place))
    }

    /// The same, to be removed.
    ///
    /// # Errors
    ///
    /// When there is no such value.
    #[inline]
    pub fn find_entry(
        &mut self,
        hash: u64,
        mut eq: impl FnMut(&T) -> bool,
    ) -> Result<OccupiedEntry<'_, T>, AbsentEntry> {
        let group = self.groups.get(&hash);
        match group.and_then(|group| group.place(|held| eq(&held.value))) {
            Some(place) => Ok(OccupiedEntry {
                table: self,
                hash,
                place,
            }),
            None => Err(AbsentEntry),
        }
    }

    /// Puts `value` in under `hash` without looking for an equal one. The map keeps the hashes, so it needs no `hasher`.
    #[inline]
    pub fn insert_unique(
        &mut self,
        hash: u64,
        value: T,
        _hasher: impl Fn(&T) -> u64,
    ) -> OccupiedEntry<'_, T> {
        let name = self.places.add(hash);
        let place = self.join(hash, Held { name, value });
        OccupiedEntry {
            table: self,
            hash,
            place,
        }
    }

    /// Puts a value into the group of its hash; its place there.
    fn join(&mut self, hash: u64, held: Held<T>) -> usize {
        match self.groups.get_mut(&hash) {
            Some(group) => {
                group.others.push(held);
                group.others.len()
            }
            None => {
                let (first, others) = (held, Vec::new());
                let _none = self.groups.insert(hash, Group { first, others });
                0
            }
        }
    }
}

/// The places.
impl<T> HashTable<T> {
    /// An empty table with so many places.
    #[must_use]
    pub fn with_places(size: usize) -> Self {
        Self {
            groups: HashMap::default(),
            places: Places::new(size),
        }
    }

    /// A table with these places, each empty or with a hash and a value under it; none unless every value is on its walk.
    #[must_use]
    pub fn placed(rows: Vec<Option<(u64, T)>>) -> Option<Self> {
        let mut table = Self::with_places(rows.len());
        for (place, row) in rows.into_iter().enumerate() {
            if let Some((hash, value)) = row {
                let name = table.places.put(place, hash);
                let _place = table.join(hash, Held { name, value });
            }
        }
        table.places.is_sound().then_some(table)
    }

    /// The value at each place.
    pub fn places(&self) -> impl Iterator<Item = Option<&T>> {
        let value = |placed: Placed| {
            let group = self.groups.get(&placed.hash)?;
            let place = group.place(|held| held.name == placed.name)?;
            Some(group.at(place))
        };
        self.places.all().map(move |placed| placed.and_then(value))
    }
}

/// A value in the table.
#[derive(Debug)]
pub struct OccupiedEntry<'a, T> {
    table: &'a mut HashTable<T>,
    hash: u64,
    place: usize,
}

impl<T> OccupiedEntry<'_, T> {
    /// Takes the value out.
    #[inline]
    pub fn remove(self) -> (T, VacantEntry) {
        let Self { table, hash, place } = self;
        let group = table
            .groups
            .get_mut(&hash)
            .expect("the entry is in the table");
        let Held { name, value } = if place > 0 {
            group.others.swap_remove(place - 1)
        } else if let Some(next) = group.others.pop() {
            core::mem::replace(&mut group.first, next)
        } else {
            table
                .groups
                .remove(&hash)
                .expect("the group was just seen")
                .first
        };
        table.places.remove(Placed { hash, name });
        (value, VacantEntry)
    }
}

/// The place that a removed value left; the store does nothing with it.
#[derive(Debug)]
pub struct VacantEntry;

/// There was no such value.
#[derive(Debug)]
pub struct AbsentEntry;

#[cfg(all(test, feature = "places"))]
mod tests {
    use super::*;

    /// The places once more, and whether they are sound: read anew, and each held value just once.
    fn are_sound(table: &HashTable<u32>, list: &[(u64, u32)]) -> bool {
        let hash = |value| list.iter().find(|held| held.1 == value).expect("held").0;
        let rows: Vec<_> = table
            .places()
            .map(|value| value.map(|&value| (hash(value), value)))
            .collect();
        let count = rows.iter().flatten().count();
        count == list.len() && HashTable::placed(rows).is_some()
    }

    /// Values put in and taken out at random, three hashes for all, against a plain list.
    #[test]
    fn agrees_with_a_list() {
        let mut table = HashTable::with_places(24);
        let mut list: Vec<(u64, u32)> = Vec::new();
        let mut random = 1_u64;
        for value in 0..20_000_u32 {
            random = random
                .wrapping_mul(6_364_136_223_846_793_005)
                .wrapping_add(1_442_695_040_888_963_407);
            let hash = random >> 33 & 3;
            if hash < 3 && list.len() < 12 {
                let _entry = table.insert_unique(hash, value, |_| unreachable!());
                list.push((hash, value));
            } else if !list.is_empty() {
                let (hash, gone) = list.swap_remove((random >> 40) as usize % list.len());
                assert_eq!(
                    table.find_mut(hash, |&held| held == gone),
                    Some(&mut gone.clone())
                );
                assert_eq!(
                    table
                        .find_entry(hash, |&held| held == gone)
                        .expect("it is held")
                        .remove()
                        .0,
                    gone
                );
                assert!(table.find_entry(hash, |&held| held == gone).is_err());
            }
            assert!(are_sound(&table, &list));
            for &(hash, held) in &list {
                assert_eq!(table.find(hash, |&other| other == held), Some(&held));
                assert_eq!(table.find(hash + 1, |&other| other == held), None);
            }
        }
    }
}
