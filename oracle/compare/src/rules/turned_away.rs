//! Request 8 of 02: each slot carries how many tries on it were answered Retry by its bucket, from the call that appended it on.

use oracle::Key;
use oracle::layout::slot;

use super::bucket::word;
use super::decision::counted;
use super::entry::Entry;
use super::shard_map::ShardMap;
use crate::branches::Branch;
use crate::reply::Reply;

/// The number at which a count stops.
const MOST: u128 = (1 << 32) - 1;

impl Entry<'_> {
    /// The count's word, whatever it is.
    fn stored(&self) -> u128 {
        self.words[slot::TURNED_AWAY].into()
    }

    /// The count as it is read: a larger word than the most reads as the most.
    fn turned_away(&self) -> u128 {
        self.stored().min(MOST)
    }

    /// A try was answered Retry by the bucket: one more is stored, and never more than the most.
    pub fn turn_away(&mut self) {
        let stored = self.stored();
        self.hits.hit(match stored {
            0 => Branch::CountFirst,
            1..MOST => Branch::CountNext,
            MOST => Branch::CountStops,
            _ => Branch::CountCut,
        });
        self.words[slot::TURNED_AWAY] = word((self.turned_away() + 1).min(MOST));
    }

    /// A request that is no such try leaves the word: a grant, a reservation that gets none, or a try that only a class denied. Says which word was left.
    pub fn leave_count(&mut self, left: Branch) {
        let stored = self.stored();
        if stored > 0 {
            self.hits.hit(left);
        }
        if stored > MOST && left == Branch::CountGrant {
            self.hits.hit(Branch::CountGrantLarger);
        }
    }
}

/// The look: the count of a key's slot, or 0 for a key without a slot. It asks nothing of the rate.
pub fn turned_away(mut map: ShardMap, key: Key, closed: bool) -> Reply {
    let place = map.position(key);
    if closed {
        map.hits.either(
            place.is_some(),
            (Branch::ClosedTurnedAway, Branch::ClosedTurnedAwayNone),
        );
    }
    let Some(place) = place else {
        let owes = map.ledger().has_hash(key.hash);
        map.hits
            .either(owes, (Branch::TurnedAwayDebt, Branch::TurnedAwayFresh));
        return counted(0);
    };
    let entry = map.entry(place);
    entry.hits.hit(match entry.stored() {
        0 => Branch::TurnedAwayNone,
        1..=MOST => Branch::TurnedAwaySome,
        _ => Branch::TurnedAwayLarger,
    });
    counted(word(entry.turned_away()))
}
