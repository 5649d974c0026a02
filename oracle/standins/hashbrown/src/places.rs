//! Where a table's values stand by request 3 of 02. Nothing is found by these places: they are kept beside the map, so that they can be shown.

/// The number by which a place knows a value.
pub type Name = u32;

/// A value of the table: its hash, and a number that is its own.
#[derive(Debug, Clone, Copy, PartialEq, Eq)]
pub struct Placed {
    pub hash: u64,
    pub name: Name,
}

/// Places, each empty or with one value. A table that was given none keeps none.
#[derive(Debug)]
pub struct Places {
    places: Vec<Option<Placed>>,
    /// The number of the next value.
    next: Name,
}

impl Places {
    /// So many empty places.
    pub fn new(size: usize) -> Self {
        Self {
            places: vec![None; size],
            next: 0,
        }
    }

    /// What each place has.
    pub fn all(&self) -> impl Iterator<Item = Option<Placed>> {
        self.places.iter().copied()
    }

    /// A number that no value has.
    fn name(&mut self) -> Name {
        self.next = self.next.wrapping_add(1);
        self.next
    }

    /// All places once, from the hash's own on, round.
    fn round_from(&self, hash: u64) -> impl Iterator<Item = usize> + use<> {
        let size = self.places.len();
        let home = hash
            .checked_rem(size as u64)
            .map_or(0, |home| home as usize);
        (home..size).chain(0..home)
    }

    /// Adds a new value; its number.
    pub fn add(&mut self, hash: u64) -> Name {
        let name = self.name();
        self.stand(Placed { hash, name });
        name
    }

    /// A value comes to stand at the first vacant place, from its hash's own on.
    fn stand(&mut self, placed: Placed) {
        let vacant = self
            .round_from(placed.hash)
            .find(|&place| self.places[place].is_none());
        if let Some(place) = vacant {
            self.places[place] = Some(placed);
        }
    }

    /// Takes a value off its place. Each value after it, up to the first vacant place, is then taken off too and added again.
    pub fn remove(&mut self, placed: Placed) {
        let is_here = |place: &usize| self.places[*place] == Some(placed);
        let Some(gone) = self.round_from(placed.hash).find(is_here) else {
            return;
        };
        self.places[gone] = None;
        for place in self.round_from(gone as u64).skip(1) {
            let Some(placed) = self.places[place].take() else {
                return;
            };
            self.stand(placed);
        }
    }

    /// Puts a new value at a given place; its number.
    pub fn put(&mut self, place: usize, hash: u64) -> Name {
        let name = self.name();
        self.places[place] = Some(Placed { hash, name });
        name
    }

    /// Whether every value is on its walk: no place from its own up to where it stands is vacant.
    pub fn is_sound(&self) -> bool {
        let used = |&place: &usize| self.places[place].is_some();
        self.places.iter().enumerate().all(|(place, placed)| {
            placed.is_none_or(|placed| {
                let mut walk = self.round_from(placed.hash).take_while(used);
                walk.any(|on| on == place)
            })
        })
    }
}
