//! The bucket of a key that comes back: a fresh one, less what it owes.

use super::bucket::{Bucket, BucketConfig};
use crate::branches::{Branch, Hits};

/// A fresh bucket, after restoring the debt that settles at `owed`. The tokens that are missing until then, rounded up, are the least that it
/// lacks: tokens beyond the rest are cut off, and what is missing beyond the whole burst is charged.
pub fn restore_debt(config: BucketConfig, now: u64, owed: Option<u64>, hits: &mut Hits) -> Bucket {
    let fresh = Bucket::fresh(config, now);
    let Some(settles_at) = owed else {
        hits.hit(Branch::RestoreNone);
        return fresh;
    };
    let remaining = settles_at.saturating_sub(now);
    if remaining == 0 {
        hits.hit(Branch::RestoreSettled);
        return fresh;
    }
    let (missing, capacity) = (config.tokens_in(remaining), u128::from(config.capacity()));
    let left = capacity.saturating_sub(missing);
    let cut = u128::from(fresh.available()).saturating_sub(left);
    let beyond = missing.saturating_sub(capacity);
    let (restored, held) = fresh.charged(cut + beyond);
    hits.hit(match (held, beyond > 0, cut > 0) {
        (true, _, _) => Branch::RestoreHeld,
        (_, true, _) => Branch::RestoreCharged,
        (_, _, true) => Branch::RestoreCut,
        _ => Branch::RestoreAsItIs,
    });
    restored
}
