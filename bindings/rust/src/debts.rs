//! Who is still in debt.

#[cfg(feature = "alloc")]
use alloc::vec::Vec;
use core::time::Duration;

use limiter_sys::debts;

use crate::Store;
use crate::answer::{self, Refusal};
use crate::settings::nanos;

#[doc(inline)]
pub use limiter_sys::debts::LimiterDebt as Debt;

/// Who is still in debt. A store that forgets a key before its bucket is full keeps its debt: the hash of the key, and the moment at which the bucket would be
/// full. A key of that hash that comes back sooner does not find its bucket full.
///
/// The store does not keep the key. A server that knows its keys finds the one of a debt by its hash ([`Key::hash`](crate::Key::hash)).
impl<W: AsRef<[u64]>, C> Store<W, C> {
    /// Lists the debts of one shard that settle after `now`: writes them over the first `records`, and returns how many they are. The records past them stay. A
    /// debt that settles at `now` has settled. The order is that of the shard's ledger, which is neither that of the moments nor that of the hashes.
    ///
    /// Shards are numbered from 0. A shard has room for as many debts as keys, [`max_keys`](crate::Settings::max_keys) / the shards in use, rounded up, and at
    /// least 1: so many records are always enough.
    ///
    /// ```
    /// # use core::time::Duration;
    /// # use limiter::{Key, OwnedStore, Rate, Settings};
    /// use limiter::Debt;
    ///
    /// // Room for one modem. Modem 7 takes two tokens, and modem 8 takes its slot.
    /// let mut store = OwnedStore::new(Settings::new(Rate::per_second(2), 1))?;
    /// let (now, first, second) = (Duration::from_secs(5), Key::fnv1a(7), Key::fnv1a(8));
    /// assert!(store.try_acquire(now, first, 2)?.is_acquired());
    /// assert!(store.try_acquire(now, second, 1)?.is_acquired());
    ///
    /// let mut records = [Debt::default(); 1];
    /// assert_eq!(store.debts(now, 0, &mut records)?, 1);
    /// assert_eq!(records[0].hash, first.hash);
    /// assert_eq!(records[0].wait(now), Duration::from_secs(1));
    /// // It settles at this moment, and is not listed.
    /// assert_eq!(store.debts(Duration::from_secs(6), 0, &mut records)?, 0);
    /// # Ok::<(), limiter::Refusal>(())
    /// ```
    ///
    /// # Errors
    ///
    /// `now` after 2^62 ns; then [`Refusal::Shard`]: there is no shard of this number; then [`Refusal::Memory`], on words that something else has written to:
    /// the count of debts is more than the shard holds; then [`Refusal::Records`]: fewer records than there are debts to write. No record has changed then.
    pub fn debts(&self, now: Duration, shard: u64, records: &mut [Debt]) -> Result<usize, Refusal> {
        answer::size(debts::list(
            self.raw,
            self.words(),
            nanos(now),
            shard,
            records,
        ))
    }

    /// The debts of all shards that settle after `now`, shard by shard.
    ///
    /// ```
    /// # use core::time::Duration;
    /// # use limiter::{Key, OwnedStore, Rate, Settings};
    /// // Room for 4 modems in 4 shards, and for their debts. Twenty modems come.
    /// let mut store = OwnedStore::new(Settings::new(Rate::per_second(2), 4).shards(4))?;
    /// let now = Duration::from_secs(5);
    /// for modem in 0..20 {
    ///     store.try_acquire(now, Key::fnv1a(modem), 1)?;
    /// }
    /// let debts = store.all_debts(now)?;
    /// assert_eq!(debts.len(), 4);
    /// assert!(debts.iter().all(|debt| debt.wait(now) == Duration::from_millis(500)));
    /// # Ok::<(), limiter::Refusal>(())
    /// ```
    ///
    /// # Errors
    ///
    /// `now` after 2^62 ns; or, on words that something else has written to, a count of debts that is more than a shard holds.
    #[cfg(feature = "alloc")]
    pub fn all_debts(&self, now: Duration) -> Result<Vec<Debt>, Refusal> {
        let (mut debts, mut listed, mut shard) = (Vec::new(), 0, 0);
        loop {
            match self.debts(now, shard, &mut debts[listed..]) {
                Ok(more) => {
                    listed += more;
                    shard += 1;
                }
                Err(Refusal::Records) => debts.resize(2 * debts.len() + 8, Debt::default()),
                Err(Refusal::Shard) => break,
                Err(refusal) => return Err(refusal),
            }
        }
        debts.truncate(listed);
        Ok(debts)
    }
}
