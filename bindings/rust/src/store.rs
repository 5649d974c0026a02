//! The store on words that it owns, or that are lent to it.

#[cfg(feature = "alloc")]
use alloc::{boxed::Box, vec};
use core::fmt;
use core::time::Duration;

use limiter_sys::{LimiterSettings, slices};

#[cfg(feature = "alloc")]
use crate::ClassTable;
use crate::answer::{self, Decision, Refusal, Reservation};
use crate::settings::nanos;
use crate::{Key, Settings};

/// What a store without classes has in place of their table.
#[derive(Debug, Clone, Copy, PartialEq, Eq, Hash, Default)]
pub struct NoClasses;

/// A store. `W` is whose its words are; [`OwnedStore`], [`LentStore`] and [`Look`] name the usual ones. `C` is the table of its classes, if it has any
/// ([`ClassTable`](crate::ClassTable)).
///
/// Moments are times since any start that the caller chooses, up to 2^62 ns (146 years). They may repeat and go back; before the moment of its
/// last grant a bucket gets nothing back. The words hold moments: a store that is kept and resumed needs the same start again. The moment that an
/// answer tells is a time since that start too.
#[derive(Clone, Copy)]
pub struct Store<W, C = NoClasses> {
    pub(crate) settings: Settings,
    /// The same with the number of classes, as every call passes them.
    pub(crate) raw: LimiterSettings,
    pub(crate) classes: C,
    pub(crate) words: W,
}

/// A store that owns its words.
#[cfg(feature = "alloc")]
pub type OwnedStore = Store<Box<[u64]>>;

/// A store on words that are lent to it.
pub type LentStore<'a> = Store<&'a mut [u64]>;

/// A store on words that are lent to it to read: it can look, and change nothing. Any number of these may look side by side.
pub type Look<'a> = Store<&'a [u64]>;

#[cfg(feature = "alloc")]
impl OwnedStore {
    /// An empty store, on as many words as the settings need.
    ///
    /// # Errors
    ///
    /// Settings out of range.
    pub fn new(settings: Settings) -> Result<Self, Refusal> {
        let words = settings.words()?;
        Self::set_up(settings, vec![0; words].into_boxed_slice())
    }

    /// An empty store with these classes, on as many words as both need.
    ///
    /// # Errors
    ///
    /// Settings out of range.
    pub fn with_classes<C: AsRef<ClassTable>>(
        settings: Settings,
        classes: C,
    ) -> Result<Store<Box<[u64]>, C>, Refusal> {
        let words = settings.words_with(classes.as_ref())?;
        Store::set_up_with(settings, classes, vec![0; words].into_boxed_slice())
    }
}

impl<W: AsRef<[u64]>> Store<W> {
    /// A store on words that were one before, under the same settings. Any words are safe, and nearly any are taken for a store: of the 84,544 bits of a
    /// full store for 100 modems in 4 shards a resume notices 61 when one is flipped. The words do not tell which settings they had. So keep
    /// [`Settings::numbers`] and a checksum with them, and compare both first: the example `save_and_resume` does.
    ///
    /// Words that an earlier version saved are fewer, and are refused with [`Refusal::Memory`]: set up anew.
    ///
    /// # Errors
    ///
    /// Whatever set-up refuses, or a total that is more than there is room for ([`Store::len`]). No other word is looked at. A count of slots or of debts
    /// that is more than a shard holds is refused only when a key of that shard asks, and so is a total that is less than the slots of that shard.
    pub fn resume(settings: Settings, words: W) -> Result<Self, Refusal> {
        let store = Self::on(settings, words);
        store.len()?;
        Ok(store)
    }

    fn on(settings: Settings, words: W) -> Self {
        Self {
            settings,
            raw: settings.raw(),
            classes: NoClasses,
            words,
        }
    }
}

impl<W: AsRef<[u64]>, C> Store<W, C> {
    /// The settings.
    #[must_use]
    pub const fn settings(&self) -> &Settings {
        &self.settings
    }

    /// The words, to be kept and resumed.
    #[must_use]
    pub fn words(&self) -> &[u64] {
        self.words.as_ref()
    }

    /// The words, given back.
    #[must_use]
    pub fn into_words(self) -> W {
        self.words
    }

    /// The store, to look. The look counts the words of its classes and does not need their table.
    #[must_use]
    pub fn look(&self) -> Look<'_> {
        Store {
            settings: self.settings,
            raw: self.raw,
            classes: NoClasses,
            words: self.words(),
        }
    }

    /// What the bucket of `key` would answer to a try; it says nothing of room for a new key.
    ///
    /// # Errors
    ///
    /// As [`Store::try_acquire`].
    pub fn peek(&self, now: Duration, key: Key, cost: u32) -> Result<Decision, Refusal> {
        let reply = slices::peek(self.raw, self.words(), nanos(now), key.hash, key.key, cost);
        answer::decision(reply)
    }

    /// The tokens that `key` has now: at most the burst.
    ///
    /// # Errors
    ///
    /// As [`Store::try_acquire`].
    pub fn available(&self, now: Duration, key: Key) -> Result<u64, Refusal> {
        let reply = slices::available(self.raw, self.words(), nanos(now), key.hash, key.key);
        answer::count(reply)
    }

    /// How many tries of `key` its own bucket has answered with [`Decision::Retry`], from the call on that gave the key its slot. That call counts too, if it
    /// was a try that was answered so. The count stops at 2^32 - 1.
    ///
    /// These do not count: a reservation, a peek, a granted or an impossible try, and a retry that means that there is no room. The count goes with the slot:
    /// a key that the store has forgotten has 0, also where its debt is remembered. When it comes back it is counted anew, from the call that brings it back.
    /// So 0 does not say that the key has not tried.
    ///
    /// ```
    /// # use core::time::Duration;
    /// # use limiter::{Key, OwnedStore, Rate, Settings};
    /// let mut store = OwnedStore::new(Settings::new(Rate::per_second(2), 100))?;
    /// let (now, modem) = (Duration::from_secs(5), Key::fnv1a(7));
    /// // Two are granted, and three turned away.
    /// for _ in 0..5 {
    ///     store.try_acquire(now, modem, 1)?;
    /// }
    /// assert_eq!(store.turned_away(modem)?, 3);
    /// # Ok::<(), limiter::Refusal>(())
    /// ```
    ///
    /// # Errors
    ///
    /// As [`Store::remove`].
    pub fn turned_away(&self, key: Key) -> Result<u64, Refusal> {
        let reply = slices::turned_away(self.raw, self.words(), key.hash, key.key);
        answer::count(reply)
    }

    /// The number of keys that have a slot.
    ///
    /// # Errors
    ///
    /// As [`Store::refund`].
    pub fn len(&self) -> Result<u64, Refusal> {
        answer::count(slices::length(self.raw, self.words()))
    }

    /// Whether no key has a slot.
    ///
    /// # Errors
    ///
    /// As [`Store::refund`].
    pub fn is_empty(&self) -> Result<bool, Refusal> {
        Ok(self.len()? == 0)
    }
}

impl<W: AsRef<[u64]> + AsMut<[u64]>> Store<W> {
    /// Makes `words` an empty store. As many are needed as [`Settings::words`] says; what stood in them does not matter.
    ///
    /// # Errors
    ///
    /// Settings out of range, or another number of words.
    pub fn set_up(settings: Settings, words: W) -> Result<Self, Refusal> {
        let mut store = Self::on(settings, words);
        answer::done(slices::set_up(store.raw, store.words.as_mut()))?;
        Ok(store)
    }

    /// Forgets all keys and debts.
    ///
    /// # Errors
    ///
    /// None on words that were set up or resumed.
    pub fn clear(&mut self) -> Result<(), Refusal> {
        answer::done(slices::clear(self.raw, self.words.as_mut()))
    }
}

impl<W: AsRef<[u64]> + AsMut<[u64]>, C> Store<W, C> {
    /// Takes `cost` tokens for `key` if they are there now. A retry of a new key can also mean that there is no room for it: room is
    /// expected then. [`Decision::moment`] is `now` for a grant, and `now` with the wait for a retry.
    ///
    /// # Errors
    ///
    /// `now` after 2^62 ns; or, on words that something else has written to, a count that is more than a shard holds.
    pub fn try_acquire(&mut self, now: Duration, key: Key, cost: u32) -> Result<Decision, Refusal> {
        let words = self.words.as_mut();
        let reply = slices::try_acquire(self.raw, words, nanos(now), key.hash, key.key, cost);
        answer::decision(reply)
    }

    /// Takes `cost` tokens for `key` if they will be there within `max_wait`; `None` if not, or if there is no room for a new key. `None` has no wait: ask
    /// [`Store::peek`] for it.
    ///
    /// # Errors
    ///
    /// As [`Store::try_acquire`], and `max_wait` over 2^46 ns.
    pub fn reserve(
        &mut self,
        now: Duration,
        key: Key,
        cost: u32,
        max_wait: Duration,
    ) -> Result<Option<Reservation>, Refusal> {
        let words = self.words.as_mut();
        let (now, max_wait) = (nanos(now), nanos(max_wait));
        let reply = slices::reserve(self.raw, words, now, key.hash, key.key, cost, max_wait);
        answer::reservation(reply)
    }

    /// Gives `cost` tokens back to `key`; whether the key was known.
    ///
    /// # Errors
    ///
    /// On words that something else has written to, a count that is more than a shard holds.
    pub fn refund(&mut self, key: Key, cost: u32) -> Result<bool, Refusal> {
        let words = self.words.as_mut();
        answer::known(slices::refund(self.raw, words, key.hash, key.key, cost))
    }

    /// Forgets `key` and the debt that is remembered for its hash; whether there was either.
    ///
    /// # Errors
    ///
    /// As [`Store::refund`].
    pub fn remove(&mut self, key: Key) -> Result<bool, Refusal> {
        let words = self.words.as_mut();
        answer::known(slices::remove(self.raw, words, key.hash, key.key))
    }
}

/// The settings and the number of words; not the words, of which there may be thousands.
impl<W: AsRef<[u64]>, C> fmt::Debug for Store<W, C> {
    fn fmt(&self, f: &mut fmt::Formatter<'_>) -> fmt::Result {
        f.debug_struct("Store")
            .field("settings", &self.settings)
            .field("words", &self.words().len())
            .finish_non_exhaustive()
    }
}
