//! What a call is given beside its words and its arguments: the settings, and the table of classes that belongs to them.

use core::fmt;
use std::rc::Rc;

use oracle::{Settings, Shape};

use crate::library::{self, RawSettings};

/// The settings record, and the words of the table, six a class. Most calls are not lent the table.
#[derive(Clone, PartialEq, Eq)]
pub struct Given {
    pub raw: RawSettings,
    pub table: Rc<[u64]>,
}

impl Given {
    /// What the settings record means, but for the number of classes.
    pub fn settings(&self) -> Settings {
        library::meaning(&self.raw)
    }

    /// How the settings divide the words of the shards. Meant for settings that are not refused as 4.
    pub fn shape(&self) -> Shape {
        Shape::of(&self.settings())
    }
}

impl fmt::Debug for Given {
    fn fmt(&self, f: &mut fmt::Formatter<'_>) -> fmt::Result {
        write!(f, "{:?}, table {:?}", self.raw, self.table)
    }
}
