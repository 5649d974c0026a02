//! Both sides of the statement, as its page says (crates/demands/specs/Refunds.antt). All numbers are exact.

use std::collections::BTreeSet;

use limiter_sys::LimiterSettings;

/// What happened to a modem in one call.
#[derive(Clone, Copy)]
pub enum Event {
    /// Tokens were granted: the moment of the call, the moment from which they are usable, and whether the call was a try through a class.
    Granted {
        asked: u64,
        usable: u64,
        tokens: u128,
        through: bool,
    },
    /// A refund was answered known: the tokens that it states, and whether the modem had a slot. If not, it had a debt.
    Refunded { tokens: u128, slot: bool },
}

impl Event {
    pub fn granted(asked: u64, usable: u64, cost: u32, through: bool) -> Self {
        let tokens = cost.into();
        Self::Granted {
            asked,
            usable,
            tokens,
            through,
        }
    }

    pub fn refunded(cost: u32, slot: bool) -> Self {
        let tokens = cost.into();
        Self::Refunded { tokens, slot }
    }

    /// The tokens of a grant whose call is at t or later and whose tokens are usable at u or before; else 0.
    fn counted(&self, t: u64, u: u64) -> u128 {
        match *self {
            Self::Granted {
                asked,
                usable,
                tokens,
                ..
            } if t <= asked && usable <= u => tokens,
            Self::Granted { .. } | Self::Refunded { .. } => 0,
        }
    }

    /// Whether it is a grant to a try through a class.
    fn is_through(&self) -> bool {
        matches!(*self, Self::Granted { through: true, .. })
    }

    /// The tokens refunded to a slot, or to a debt.
    fn back(&self, to_slot: bool) -> u128 {
        match *self {
            Self::Refunded { tokens, slot } if slot == to_slot => tokens,
            Self::Granted { .. } | Self::Refunded { .. } => 0,
        }
    }
}

/// Both sides for one window, times the period. The right side is in three terms.
#[derive(Clone, Copy)]
pub struct Sides {
    pub granted: u128,
    pub without_refunds: u128,
    pub to_slots: u128,
    pub to_debts: u128,
    /// Whether a counted grant is to a try through a class.
    pub through: bool,
}

impl Sides {
    pub fn allowed(&self) -> u128 {
        self.without_refunds + self.to_slots + self.to_debts
    }
}

/// Both sides for the grants from t to u; none if nothing is granted there.
fn sides(s: &LimiterSettings, events: &[Event], t: u64, u: u64) -> Option<Sides> {
    let counts = |event: &Event| event.counted(t, u) >= 1;
    let (first, last) = (
        events.iter().position(counts)?,
        events.iter().rposition(counts)?,
    );
    let (period, amount, burst) = (
        u128::from(s.period),
        u128::from(s.amount),
        u128::from(s.burst),
    );
    let between = &events[first..=last];
    let refunded = |to_slot: bool| {
        between
            .iter()
            .map(|event| event.back(to_slot))
            .sum::<u128>()
            * period
    };
    Some(Sides {
        granted: between
            .iter()
            .map(|event| event.counted(t, u))
            .sum::<u128>()
            * period,
        without_refunds: burst * period + u128::from(u - t) * amount,
        to_slots: refunded(true),
        to_debts: refunded(false),
        through: between
            .iter()
            .any(|event| counts(event) && event.is_through()),
    })
}

/// Both sides for every window from the call of a grant to the moment from which a grant is usable. A longer window counts no other grants, and allows more.
pub fn windows(s: &LimiterSettings, events: &[Event]) -> Vec<Sides> {
    let starts = moments(events, |asked, _| asked);
    let ends = moments(events, |_, usable| usable);
    let spans = starts
        .iter()
        .flat_map(|&t| ends.iter().filter(move |&&u| t <= u).map(move |&u| (t, u)));
    spans.filter_map(|(t, u)| sides(s, events, t, u)).collect()
}

/// A moment of every grant, each once.
fn moments(events: &[Event], of: impl Fn(u64, u64) -> u64) -> BTreeSet<u64> {
    let grants = events.iter().filter_map(|event| match *event {
        Event::Granted { asked, usable, .. } => Some(of(asked, usable)),
        Event::Refunded { .. } => None,
    });
    grants.collect()
}
