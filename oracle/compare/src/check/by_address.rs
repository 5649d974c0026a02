//! One call by address.

use super::difference::{Checked, differing};
use super::{Bench, Step, Trio};
use crate::branches::Origin;
use crate::by_address::ByAddress;
use crate::check::trio::Replies;
use crate::generate::Aside;
use crate::given::Given;
use crate::lent::Lent;
use crate::reply::Said;
use crate::rules::by_address::{answer, key};

/// The call on the modem's key, if it is not refused for its address; else on no key, to be shown.
fn step(given: &Given, call: &ByAddress) -> Step {
    let none = oracle::Key { hash: 0, key: 0 };
    Step {
        given: given.clone(),
        call: call.on(key(&call.bytes).unwrap_or(none)),
    }
}

impl Bench {
    /// One call by address, of the library and by the rules. The Rust, which knows no addresses, makes the call on the modem's key; a call that is
    /// refused for its address changes no word of the three.
    pub fn by_address(
        &mut self,
        trio: &mut Trio,
        given: &Given,
        call: &ByAddress,
        room: &mut Lent,
    ) -> Checked<()> {
        let ruled = answer(given, &mut trio.words, call, &mut self.hits);
        let ours = call.ask(given.raw, self.lent.words(), room);
        let rust = match key(&call.bytes) {
            Ok(key) => call.on(key).ask(&trio.limiter),
            Err(_) => ruled.answer,
        };
        let rust = Some(rust);
        let replies = Replies { ours, rust, ruled };
        trio.compare(&mut self.lent, &step(given, call), replies)
    }

    /// One call by address on settings and words of any content.
    pub fn aside_by_address(
        &mut self,
        aside: &Aside,
        call: &ByAddress,
        room: &mut Lent,
    ) -> Checked<()> {
        self.hits.origin = Origin::Any;
        let mut words = aside.words.clone();
        let ruled = answer(&aside.given, &mut words, call, &mut self.hits);
        self.scratch.fill(&aside.words);
        let ours = call.ask(aside.given.raw, self.scratch.words(), room);
        let guarded = self.scratch.guarded();
        let lent = self.scratch.words();
        if ours == ruled && lent == words && guarded {
            return Ok(());
        }
        let answers = vec![Said::library(ours), Said::rules(ruled)];
        let step = step(&aside.given, call);
        Err(differing(
            "the library and the rules",
            &step,
            answers,
            lent,
            &words,
        ))
    }
}
