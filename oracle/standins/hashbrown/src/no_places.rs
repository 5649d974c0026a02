//! A table without places: nothing is kept beside the map, and nothing takes time.

/// No value needs a number.
pub type Name = ();

/// A value of the table, by its hash alone.
#[derive(Debug, Clone, Copy)]
pub struct Placed {
    pub hash: u64,
    pub name: Name,
}

/// No places.
#[derive(Debug)]
pub struct Places;

impl Places {
    pub const fn new(_size: usize) -> Self {
        Self
    }

    pub fn all(&self) -> impl Iterator<Item = Option<Placed>> {
        core::iter::empty()
    }

    pub const fn add(&mut self, _hash: u64) -> Name {}

    pub const fn remove(&mut self, _placed: Placed) {}

    pub const fn put(&mut self, _place: usize, _hash: u64) -> Name {}

    pub const fn is_sound(&self) -> bool {
        true
    }
}
