//! Traces of calls by hardware address.

use super::{Failed, Run};
use crate::by_address::ByAddress;
use crate::call::Call;
use crate::check::{self, Difference, Start, Step};
use crate::generate::{Aside, Plan, addresses, no_address};
use crate::given::Given;
use crate::lent::Lent;
use crate::random::Random;
use crate::rules::by_address::key;

/// The kinds of bytes that have to come up.
const KINDS: [&str; 7] = [
    "the address of a modem",
    "the address of a group",
    "no bytes",
    "five bytes",
    "seven bytes",
    "65,536 bytes",
    "another length, and the group bit set",
];

/// The most bytes that are lent as an address, in words.
const MOST_WORDS: usize = 65_536 / 8;

/// The room in which addresses are lent, and how often each kind of bytes came up.
pub struct Addresses {
    room: Lent,
    kinds: [u64; KINDS.len()],
}

impl Addresses {
    pub fn new() -> Self {
        Self {
            room: Lent::new(MOST_WORDS),
            kinds: [0; KINDS.len()],
        }
    }

    fn count(&mut self, bytes: &[u8]) {
        let mut hit = |kind: usize, is: bool| self.kinds[kind] += u64::from(is);
        let group = bytes.first().is_some_and(|first| first & 1 == 1);
        let len = bytes.len();
        hit(0, len == 6 && !group);
        hit(1, len == 6 && group);
        hit(2, len == 0);
        hit(3, len == 5);
        hit(4, len == 7);
        hit(5, len == 65_536);
        hit(6, len != 6 && group);
    }

    /// How often each kind came up, and the kinds that never did.
    pub fn report(&self) -> Vec<String> {
        let counts = KINDS.iter().zip(self.kinds);
        let told: Vec<String> = counts
            .clone()
            .map(|(kind, count)| format!("{kind} {count}"))
            .collect();
        println!("by address: {}", told.join(", "));
        counts
            .filter(|&(_, count)| count == 0)
            .map(|(kind, _)| format!("by address: {kind}"))
            .collect()
    }
}

impl Run {
    /// A short trace of calls by address, on a store that other calls look at too; and calls by address on settings and words of any content.
    pub(super) fn modems(&mut self, trace: u64) -> Result<(), Failed> {
        let mut random = Random::new(!self.options.seed, trace);
        let random = &mut random;
        let plan = Plan::small(random);
        let known = addresses(random, plan.shape.room() * 2 + 2);
        let keys = known.iter().map(|address| key(address).expect("a modem's"));
        let mut plan = plan.over(keys.collect());
        let call = plan.set_up(random);
        let start = Start {
            given: plan.given(random, &call),
            call,
            loaded: None,
        };
        let mut trio = self
            .bench
            .start(&start)
            .map_err(|difference| by_address_failed(&start.given, None, difference))?;
        for _ in 0..20 {
            let call = plan.call(random, trio.words());
            let given = plan.given(random, &call);
            let step = Step { given, call };
            self.count(&step);
            let given = &step.given;
            let checked = match named(random, &known, call) {
                Some(call) => {
                    self.addresses.count(&call.bytes);
                    self.bench
                        .by_address(&mut trio, given, &call, &mut self.addresses.room)
                        .map_err(|difference| by_address_failed(given, Some(&call), difference))
                }
                None => self
                    .bench
                    .step(&mut trio, &step)
                    .map_err(|difference| by_address_failed(given, None, difference)),
            };
            checked?;
        }
        (0..5).try_for_each(|_| self.aside_by_address(random, &known))
    }

    fn aside_by_address(&mut self, random: &mut Random, known: &[[u8; 6]]) -> Result<(), Failed> {
        let aside = Aside::any(random);
        let Some(call) = named(random, known, aside.call) else {
            return Ok(());
        };
        self.count(&Step {
            given: aside.given.clone(),
            call: aside.call,
        });
        self.addresses.count(&call.bytes);
        self.bench
            .aside_by_address(&aside, &call, &mut self.addresses.room)
            .map_err(|difference| by_address_failed(&aside.given, Some(&call), difference))
    }
}

/// The call by address: that of its key, if it is one of these modems', and now and then bytes that are none.
fn named(random: &mut Random, known: &[[u8; 6]], call: Call) -> Option<ByAddress> {
    let asked = call.key()?;
    let of_key = known.iter().find(|address| key(*address) == Ok(asked));
    let address = of_key.copied().unwrap_or_else(|| random.pick(known));
    let bytes = if random.chance(20) {
        no_address(random, address)
    } else {
        address.to_vec()
    };
    ByAddress::new(bytes, call)
}

/// A difference in a call by address. It is not shortened; `--only` and `--show` give all calls before it.
fn by_address_failed(
    given: &Given,
    call: Option<&ByAddress>,
    difference: Box<Difference>,
) -> Failed {
    let mut text = check::trace_head(given, 0, None);
    if let Some(call) = call {
        println!("by address {call}");
        text.push_str(&format!("# by address {call}\n"));
    }
    Failed { difference, text }
}
