//! A random list of calls on a fresh store, made call by call, and what happened to each modem in it.

use limiter_sys::{LIMITER_DONE, LIMITER_RETRY, LimiterReply, LimiterSettings};

use crate::random::Random;
use crate::sides::Event;
use crate::store::{Deed, Modem, Store};

/// The latest moment at which a call is accepted.
const LATEST: u64 = 1 << 62;

/// A list of calls as it was answered.
pub struct List {
    pub settings: LimiterSettings,
    /// What happened to each modem.
    pub events: Vec<Vec<Event>>,
    /// For which modems an accepted call reserved.
    pub reserved: Vec<bool>,
    /// How many calls there are.
    pub calls: u64,
    /// The list as a trace of the oracle.
    pub trace: String,
}

/// A list while it is made.
struct Making<'a> {
    random: &'a mut Random,
    store: Store,
    modems: Vec<Modem>,
    now: u64,
    /// The last moment at which a modem was told to try again.
    told: u64,
    list: List,
}

impl List {
    /// A random list.
    pub fn made(random: &mut Random) -> Self {
        let store = Store::new(random);
        let modems: Vec<_> = (1..=random.within(1, 3) as u8).map(Modem::new).collect();
        let now = random.pick(&[0, 1, 1_000_000_007, LATEST - 1_000_000_000_000]);
        let calls = random.within(2, 24);
        let list = Self {
            settings: store.settings,
            events: vec![Vec::new(); modems.len()],
            reserved: vec![false; modems.len()],
            calls,
            trace: set_line(&store.settings) + &store.table_lines(),
        };
        let mut making = Making {
            random,
            store,
            modems,
            now,
            told: now,
            list,
        };
        for _ in 0..calls {
            making.call();
        }
        making.list
    }
}

impl Making<'_> {
    /// One more call. Most name the first modem, so that the others get in its way.
    fn call(&mut self) {
        let place = if self.random.chance(70) {
            0
        } else {
            self.random.below(self.modems.len() as u64) as usize
        };
        let who = self.modems[place];
        let deed = match self.random.below(10) {
            0..=5 => {
                let deed = self.try_deed(&who);
                self.through_a_class(deed)
            }
            6 if self.random.chance(50) => self.reserve_deed(),
            _ => Deed::Refund { cost: self.cost() },
        };
        let slot = self.store.has_slot(&who);
        let by_address = self.random.chance(50);
        let reply = self.store.ask(&who, by_address, deed);
        self.list.trace += &line(&who, deed);
        self.note(place, deed, slot, reply);
    }

    /// A try, now and then one that is refused for its moment. Often it takes all that is there.
    fn try_deed(&mut self, who: &Modem) -> Deed {
        if self.random.chance(3) {
            return Deed::Try {
                now: LATEST + 1,
                cost: 1,
            };
        }
        self.pass_time();
        let cost = match self.random.below(3) {
            0 => self.store.available(who, self.now),
            _ => self.cost(),
        };
        Deed::Try {
            now: self.now,
            cost,
        }
    }

    /// Half of the tries on a store with classes go through one of them.
    fn through_a_class(&mut self, deed: Deed) -> Deed {
        let classes = u64::from(self.store.settings.classes);
        match deed {
            Deed::Try { now, cost } if classes > 0 && self.random.chance(50) => Deed::Through {
                now,
                class: self.random.below(classes),
                cost,
            },
            _ => deed,
        }
    }

    fn reserve_deed(&mut self) -> Deed {
        self.pass_time();
        let max_wait = self.random.any_size(4 * self.store.settings.period);
        Deed::Reserve {
            now: self.now,
            cost: self.cost(),
            max_wait,
        }
    }

    /// Moments never fall. Some are those at which a modem was told to try again.
    fn pass_time(&mut self) {
        let period = self.store.settings.period;
        let step = match self.random.below(6) {
            0 => self.random.any_size(3 * period),
            1 => self.told.saturating_sub(self.now),
            2 => self.random.below(3),
            _ => 0,
        };
        self.now = (self.now + step).min(LATEST);
    }

    /// A number of tokens, mostly from 1 to the burst.
    fn cost(&mut self) -> u32 {
        let burst = u64::from(self.store.settings.burst);
        let cost = if self.random.chance(10) {
            self.random.below(burst + 3)
        } else {
            self.random.within(1, burst)
        };
        cost as u32
    }

    /// What the answer says of the modem.
    fn note(&mut self, place: usize, deed: Deed, slot: bool, reply: LimiterReply) {
        let granted = reply.code == LIMITER_DONE;
        if reply.code == LIMITER_RETRY {
            self.told = reply.moment;
        }
        let events = &mut self.list.events[place];
        match deed {
            Deed::Try { now, cost } if granted => {
                events.push(Event::granted(now, now, cost, false));
            }
            Deed::Through { now, cost, .. } if granted => {
                events.push(Event::granted(now, now, cost, true));
            }
            Deed::Reserve { now, cost, .. } => {
                self.list.reserved[place] = true;
                if granted {
                    events.push(Event::granted(now, now + reply.number, cost, false));
                }
            }
            Deed::Refund { cost } if granted => events.push(Event::refunded(cost, slot)),
            Deed::Try { .. } | Deed::Through { .. } | Deed::Refund { .. } => (),
        }
    }
}

/// The line of a trace that sets the store up.
fn set_line(s: &LimiterSettings) -> String {
    let optional = |set: u32, value: u64| {
        if set == 0 {
            "-".to_string()
        } else {
            value.to_string()
        }
    };
    let (initial, idle) = (
        optional(s.has_initial, s.initial.into()),
        optional(s.has_idle, s.idle),
    );
    format!(
        "set {} {} {} {initial} {} {} {idle} 0\n",
        s.amount, s.period, s.burst, s.max_keys, s.shards
    )
}

/// The line of a trace that asks a modem by its key. The oracle knows no classes: a try through one is a comment.
fn line(who: &Modem, deed: Deed) -> String {
    let (hash, key) = (who.hash, who.key);
    match deed {
        Deed::Try { now, cost } => format!("try {now} {hash} {key} {cost}\n"),
        Deed::Through { now, class, cost } => {
            format!("# through {class}: try {now} {hash} {key} {cost}\n")
        }
        Deed::Reserve {
            now,
            cost,
            max_wait,
        } => format!("reserve {now} {hash} {key} {cost} {max_wait}\n"),
        Deed::Refund { cost } => format!("refund {hash} {key} {cost}\n"),
    }
}
