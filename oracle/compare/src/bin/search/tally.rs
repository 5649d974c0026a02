//! What the search found: the worst ratio of both sides, by three ways to count refunds, and how often the bound was reached.

use core::fmt;

use crate::list::List;
use crate::sides::{Sides, windows};

/// The largest ratio of a left side to a right side, as both of them.
#[derive(Clone, Copy)]
struct Worst {
    granted: u128,
    allowed: u128,
}

impl Default for Worst {
    fn default() -> Self {
        Self {
            granted: 0,
            allowed: 1,
        }
    }
}

impl Worst {
    fn see(&mut self, granted: u128, allowed: u128) {
        if granted * self.allowed > self.granted * allowed {
            *self = Self { granted, allowed };
        }
    }

    fn over(&self) -> bool {
        self.granted > self.allowed
    }

    fn is_one(&self) -> bool {
        self.granted == self.allowed
    }
}

/// The ratio, exactly if it is 1.
impl fmt::Display for Worst {
    fn fmt(&self, f: &mut fmt::Formatter<'_>) -> fmt::Result {
        if self.is_one() {
            return f.write_str("1");
        }
        write!(f, "{}/{}", self.granted, self.allowed)
    }
}

/// All that is reported.
#[derive(Default)]
pub struct Tally {
    lists: u64,
    calls: u64,
    windows: u64,
    stated: Worst,
    without_refunds: Worst,
    slots_alone: Worst,
    /// How often the bound was reached with tokens refunded to a slot, to a debt, and to a modem that was reserved for; and of the first two, how often with a
    /// grant to a try through a class.
    by_slot: u64,
    by_debt: u64,
    reserved: u64,
    through: u64,
}

impl Tally {
    /// All windows of every modem of a list. The first one that is over its bound is a fault.
    pub fn add(&mut self, list: &List) -> Result<(), String> {
        self.lists += 1;
        self.calls += list.calls;
        for (place, events) in list.events.iter().enumerate() {
            self.add_modem(&windows(&list.settings, events), list.reserved[place]);
        }
        if self.stated.over() {
            return Err(format!("granted is {} times what is allowed", self.stated));
        }
        Ok(())
    }

    fn add_modem(&mut self, windows: &[Sides], reserved: bool) {
        self.windows += windows.len() as u64;
        for sides in windows {
            self.add_window(sides, reserved);
        }
    }

    fn add_window(&mut self, sides: &Sides, reserved: bool) {
        self.stated.see(sides.granted, sides.allowed());
        let tight = sides.granted == sides.allowed() && sides.to_slots + sides.to_debts > 0;
        self.reserved += u64::from(tight && reserved);
        if reserved {
            return;
        }
        self.without_refunds
            .see(sides.granted, sides.without_refunds);
        self.slots_alone
            .see(sides.granted, sides.without_refunds + sides.to_slots);
        self.by_slot += u64::from(tight && sides.to_debts == 0);
        self.by_debt += u64::from(tight && sides.to_debts > 0);
        self.through += u64::from(tight && sides.through);
    }

    /// Whether the bound was reached in each way, and both weaker statements were refuted.
    pub fn found_all(&self) -> bool {
        let reached = self.by_slot > 0 && self.by_debt > 0 && self.reserved > 0 && self.through > 0;
        self.stated.is_one() && reached && self.without_refunds.over() && self.slots_alone.over()
    }
}

impl fmt::Display for Tally {
    fn fmt(&self, f: &mut fmt::Formatter<'_>) -> fmt::Result {
        let Self {
            lists,
            calls,
            windows,
            stated,
            without_refunds,
            slots_alone,
            ..
        } = self;
        let (by_slot, by_debt, reserved, through) =
            (self.by_slot, self.by_debt, self.reserved, self.through);
        writeln!(
            f,
            "{lists} lists of {calls} calls, {windows} windows: granted is at most {stated} times what is allowed"
        )?;
        writeln!(
            f,
            "  reached with refunds in between: {by_slot} times to a slot, {by_debt} to a debt, {reserved} where the modem was reserved for"
        )?;
        writeln!(
            f,
            "  {through} of the first two with a grant to a try through a class"
        )?;
        write!(
            f,
            "  refunds left out: {without_refunds}; refunds to slots alone: {slots_alone}"
        )
    }
}
