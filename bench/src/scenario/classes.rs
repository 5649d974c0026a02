//! A modem that asks through the limits of its node and hub.

use super::{BASE, Call, Hash, MS, Op, Scenario, Setup, try_};

/// The classes of a store: chains of one length. The first class of each has no parent, and each other one is below the class before it. They let everything
/// pass: 65,535 tokens a second, and as many at once.
#[derive(Clone, Copy, PartialEq, Eq)]
pub struct Classes {
    pub count: usize,
    pub chain: usize,
}

impl Classes {
    pub const NONE: Self = Self { count: 0, chain: 1 };
    /// The tokens of each class in a second, and the most in its bucket.
    pub const AMOUNT: u32 = 65_535;

    /// The class above each, if there is one.
    pub fn parents(self) -> impl Iterator<Item = Option<u64>> {
        let above =
            move |class: usize| (!class.is_multiple_of(self.chain)).then(|| class as u64 - 1);
        (0..self.count).map(above)
    }

    /// The class that a try names: the last one, at the end of the last chain.
    pub const fn named(self) -> u64 {
        (self.count as u64).saturating_sub(1)
    }
}

/// A try of a token every millisecond, which is when a token comes back, so that the modem's bucket and all on the chain grant it.
pub fn through(calls: usize, classes: Classes) -> Scenario {
    let key = Hash::Fnv1a.key(7);
    let at = |i: usize| Call {
        op: Op::Through,
        ..try_(i as u64 * MS, key, 1)
    };
    Scenario {
        name: String::new(),
        setup: Setup { classes, ..BASE },
        before: vec![at(0), at(0)],
        timed: (1..=calls).map(at).collect(),
        code: 0,
    }
}
