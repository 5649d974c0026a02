//! What the harness needs of a limiter and the published file keeps to itself: the whole decision of a try (its public call
//! gives a `bool`), whether a refund found its key, and the store with the bucket's configuration.

use better_bucket::BucketConfig;
use clock_lib::Clock;

use super::PerKey;
use crate::decision::Decision;
use crate::key::Key;
use crate::store::Store;

impl<C: Clock> PerKey<Key, C> {
    /// What `try_acquire_with_cost` decides, before it is cut to granted or not.
    #[inline]
    pub(crate) fn decision(&self, key: &Key, cost: u32) -> Decision {
        self.decide(key, cost)
    }

    /// `refund`, and whether the key was known: the answer of `Store::refund`, unknown for a closed limiter.
    pub(crate) fn refund_known(&self, key: &Key, cost: u32) -> bool {
        self.config
            .is_some_and(|config| self.store.refund(key, cost, config))
    }

    /// The store.
    pub(crate) fn store(&self) -> &Store<Key> {
        &self.store
    }

    /// The bucket's configuration, none for a closed limiter.
    pub(crate) fn config(&self) -> Option<BucketConfig> {
        self.config
    }
}
