//! Request 12 of 02: the debts of one shard as a list. They are those that settle after now, in the order of the ledger.

use oracle::layout::{self, debt};

use super::decision::counted;
use crate::branches::{Branch, Hits};
use crate::call::Call;
use crate::given::Given;
use crate::records;
use crate::reply::Reply;

/// What a list says: of which shard, and after which moment.
#[derive(Clone, Copy)]
pub struct Asked {
    pub now: u64,
    pub shard: u64,
}

impl Asked {
    /// The words of the shard, which is one of the store's.
    fn row<'a>(self, given: &Given, words: &'a [u64]) -> &'a [u64] {
        &words[given.shape().shard(self.shard)]
    }

    /// The debts that the ledger holds, settled or not: so many as its count, which is at most the cap.
    fn held<'a>(
        self,
        given: &Given,
        words: &'a [u64],
    ) -> impl Iterator<Item = (u64, u64)> + use<'a> {
        let debts = layout::debts(given.shape().room());
        let row = self.row(given, words);
        let count = row[debts.count] as usize;
        (0..count).map(move |place| {
            let words = &row[debts.item(place)];
            (words[debt::HASH], words[debt::SETTLES_AT])
        })
    }

    /// Those that settle after now.
    pub fn listed<'a>(
        self,
        given: &Given,
        words: &'a [u64],
    ) -> impl Iterator<Item = (u64, u64)> + use<'a> {
        let Self { now, .. } = self;
        self.held(given, words)
            .filter(move |&(_, settles_at)| now < settles_at)
    }
}

/// The records after a call on these words: a refused one leaves them all, and any other call is lent none.
pub fn records(given: &Given, words: &[u64], call: &Call) -> Vec<u64> {
    let before = records::before(call);
    match *call {
        Call::Debts { now, shard, .. } if super::refusal(given, words, call).is_none() => {
            records::written(before, Asked { now, shard }.listed(given, words))
        }
        _ => before,
    }
}

/// The number of debts that are listed in so many records, in a call that is not refused. No word changes.
pub fn answer(given: &Given, words: &[u64], asked: Asked, lent: usize, hits: &mut Hits) -> Reply {
    let listed = asked.listed(given, words).count();
    tell(given, words, asked, hits);
    hits.hit(match lent - listed {
        0 if listed == 0 => Branch::ListNoRecords,
        0 => Branch::ListJust,
        _ => Branch::ListMore,
    });
    counted(listed as u64)
}

/// Which debts were listed, and what else was in the words.
fn tell(given: &Given, words: &[u64], asked: Asked, hits: &mut Hits) {
    let (shape, row) = (given.shape(), asked.row(given, words));
    let held = asked.held(given, words).count();
    let listed = asked.listed(given, words).count();
    hits.hit(match (held, listed) {
        (0, _) => Branch::ListEmpty,
        (_, 0) => Branch::ListSettled,
        _ if listed == held => Branch::ListAll,
        _ => Branch::ListSome,
    });
    let mut moments = asked.held(given, words).map(|(_, settles_at)| settles_at);
    if moments.any(|settles_at| settles_at == asked.now) {
        hits.hit(Branch::ListNow);
    }
    if row[layout::cursor(shape.room())] > held as u64 {
        hits.hit(Branch::ListCursor);
    }
    let (slots, total) = (row[layout::SLOTS.count], words[layout::TOTAL]);
    if slots > shape.cap {
        hits.hit(Branch::ListSlots);
    }
    if total < slots || total > shape.places() {
        hits.hit(Branch::ListTotal);
    }
    if given.settings().rate.is_none() {
        hits.either(listed > 0, (Branch::ClosedList, Branch::ClosedListNone));
    }
}
