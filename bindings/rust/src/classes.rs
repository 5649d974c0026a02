//! Limits above the keys: a node, and the hub above it.

use core::fmt;
use core::time::Duration;

use limiter_sys::classes::{self, CLASS_WORDS};
use limiter_sys::{LIMITER_LONGEST_CHAIN, LIMITER_MOST_CLASSES, LimiterClass, limiter_words};

use crate::answer::{self, Decision, Refusal};
use crate::settings::nanos;
use crate::{Key, Settings, Store};

/// The number of a class in its table.
///
/// [`ClassTable::add`] gives it. A number from elsewhere, as a server's configuration has it, is taken too: a store refuses it if the table has no such class.
#[derive(Debug, Clone, Copy, PartialEq, Eq, PartialOrd, Ord, Hash)]
pub struct ClassNumber(u64);

impl ClassNumber {
    /// The class of this number.
    #[must_use]
    pub const fn new(number: u64) -> Self {
        Self(number)
    }

    /// The number.
    #[must_use]
    pub const fn get(self) -> u64 {
        self.0
    }
}

/// A class: a limit above the keys, with one bucket for all keys that ask through it. The bucket begins full.
#[non_exhaustive]
#[derive(Debug, Clone, Copy, PartialEq, Eq, Hash)]
pub struct Class {
    /// Tokens that come back in a period: 1 to 65,535.
    pub amount: u32,
    /// The period: 1 to 2^46 ns (19 hours).
    pub period: Duration,
    /// The most tokens in the bucket, 1 to 65,535; `None`: the amount.
    pub burst: Option<u32>,
    /// The class above this one; `None`: there is none.
    pub parent: Option<ClassNumber>,
}

impl Class {
    /// `amount` tokens every `period`, and no class above.
    #[must_use]
    pub const fn new(amount: u32, period: Duration) -> Self {
        Self {
            amount,
            period,
            burst: None,
            parent: None,
        }
    }

    /// `amount` tokens every second, and no class above.
    #[must_use]
    pub const fn per_second(amount: u32) -> Self {
        Self::new(amount, Duration::from_secs(1))
    }

    /// With another burst than the amount.
    #[must_use]
    pub const fn burst(mut self, burst: u32) -> Self {
        self.burst = Some(burst);
        self
    }

    /// Below the class `parent`.
    #[must_use]
    pub const fn parent(mut self, parent: ClassNumber) -> Self {
        self.parent = Some(parent);
        self
    }

    /// The record that the library takes. A period past 64 bits of nanoseconds is held to them, and refused.
    fn raw(&self) -> LimiterClass {
        LimiterClass {
            amount: self.amount.into(),
            period: nanos(self.period),
            has_burst: self.burst.is_some().into(),
            burst: self.burst.unwrap_or(0).into(),
            has_parent: self.parent.is_some().into(),
            parent: self.parent.map_or(0, ClassNumber::get),
        }
    }
}

/// A table of classes, for [`Store::set_up_with`]. It needs no allocator: it has room for 64 classes, 3 KB.
///
/// ```
/// use limiter::{Class, ClassTable};
///
/// let mut classes = ClassTable::new();
/// let hub = classes.add(Class::per_second(50))?;
/// let node = classes.add(Class::per_second(20).burst(30).parent(hub))?;
/// assert_eq!((hub.get(), node.get(), classes.len()), (0, 1, 2));
/// # Ok::<(), limiter::Refusal>(())
/// ```
#[derive(Clone, PartialEq, Eq, Hash)]
pub struct ClassTable {
    /// The words of the classes, and 0 after them.
    words: [u64; CLASS_WORDS * LIMITER_MOST_CLASSES],
    len: usize,
}

impl ClassTable {
    /// An empty table.
    #[must_use]
    pub const fn new() -> Self {
        Self {
            words: [0; CLASS_WORDS * LIMITER_MOST_CLASSES],
            len: 0,
        }
    }

    /// A table of these classes, numbered from 0 in their order. A parent may come after its children.
    ///
    /// # Errors
    ///
    /// As set-up refuses the table: [`Refusal::Class`] for more than 64 classes; then [`Refusal::Amount`], [`Refusal::Period`] or [`Refusal::Burst`] of the
    /// first class whose rate is out of range; [`Refusal::Class`] for a parent that is not in the table; [`Refusal::Chain`] for a chain of parents that does
    /// not end within 8 classes.
    pub fn of(classes: &[Class]) -> Result<Self, Refusal> {
        let mut table = Self::new();
        if classes.len() > LIMITER_MOST_CLASSES {
            return Err(Refusal::Class);
        }
        for class in classes {
            table.put(class);
        }
        classes.iter().try_for_each(check_rate)?;
        classes
            .iter()
            .try_for_each(|class| table.check_parent(class))?;
        (0..table.len).try_for_each(|class| table.check_chain(class))?;
        Ok(table)
    }

    /// Adds a class, and gives its number. Its parent has to be in the table already: so no chain is a loop.
    ///
    /// # Errors
    ///
    /// [`Refusal::Class`] for a class after the 64th; then as [`ClassTable::of`]. The table is then as it was.
    pub fn add(&mut self, class: Class) -> Result<ClassNumber, Refusal> {
        if self.len == LIMITER_MOST_CLASSES {
            return Err(Refusal::Class);
        }
        check_rate(&class)?;
        self.check_parent(&class)?;
        if let Some(parent) = class.parent {
            self.check_chain_below(parent)?;
        }
        let number = ClassNumber(self.len as u64);
        self.put(&class);
        Ok(number)
    }

    /// How many classes it has.
    #[must_use]
    pub const fn len(&self) -> usize {
        self.len
    }

    /// Whether it has none.
    #[must_use]
    pub const fn is_empty(&self) -> bool {
        self.len == 0
    }

    /// The table as numbers, six a class, in the order of the C struct. Keep them with the words of a store, as [`Settings::numbers`].
    #[must_use]
    pub fn numbers(&self) -> &[u64] {
        &self.words[..CLASS_WORDS * self.len]
    }

    /// Puts a class after the others. There is room for it.
    fn put(&mut self, class: &Class) {
        let at = CLASS_WORDS * self.len;
        self.words[at..at + CLASS_WORDS].copy_from_slice(&class.raw().words());
        self.len += 1;
    }

    /// The place of a number, if the table has such a class.
    fn place(&self, number: ClassNumber) -> Option<usize> {
        let place = usize::try_from(number.0).ok()?;
        (place < self.len).then_some(place)
    }

    /// The class above the one at a place.
    fn above(&self, place: usize) -> Option<usize> {
        let class = &self.words[CLASS_WORDS * place..CLASS_WORDS * (place + 1)];
        let [_, _, _, _, has_parent, parent] = class else {
            return None;
        };
        (*has_parent != 0).then(|| self.place(ClassNumber(*parent)))?
    }

    /// How many classes the chain from a place has, as far as they are counted: one more than the longest is too many.
    fn chain(&self, place: usize) -> usize {
        core::iter::successors(Some(place), |&place| self.above(place))
            .take(LIMITER_LONGEST_CHAIN + 1)
            .count()
    }

    fn check_parent(&self, class: &Class) -> Result<(), Refusal> {
        match class.parent {
            Some(parent) if self.place(parent).is_none() => Err(Refusal::Class),
            Some(_) | None => Ok(()),
        }
    }

    fn check_chain(&self, place: usize) -> Result<(), Refusal> {
        refuse(self.chain(place) > LIMITER_LONGEST_CHAIN, Refusal::Chain)
    }

    /// Whether a class may be put below one that is in the table.
    fn check_chain_below(&self, parent: ClassNumber) -> Result<(), Refusal> {
        let above = self.place(parent).map_or(0, |place| self.chain(place));
        refuse(above >= LIMITER_LONGEST_CHAIN, Refusal::Chain)
    }
}

fn refuse(refused: bool, refusal: Refusal) -> Result<(), Refusal> {
    if refused { Err(refusal) } else { Ok(()) }
}

/// 1 to 3 of a class.
fn check_rate(class: &Class) -> Result<(), Refusal> {
    let tokens = 1..=65_535;
    refuse(!tokens.contains(&class.amount), Refusal::Amount)?;
    let period = 1..=(1 << 46);
    refuse(!period.contains(&nanos(class.period)), Refusal::Period)?;
    let burst = class.burst.unwrap_or(class.amount);
    refuse(!tokens.contains(&burst), Refusal::Burst)
}

impl Default for ClassTable {
    fn default() -> Self {
        Self::new()
    }
}

impl AsRef<ClassTable> for ClassTable {
    fn as_ref(&self) -> &Self {
        self
    }
}

/// The words of its classes.
impl fmt::Debug for ClassTable {
    fn fmt(&self, f: &mut fmt::Formatter<'_>) -> fmt::Result {
        let classes = self.numbers().chunks(CLASS_WORDS);
        f.debug_list().entries(classes).finish()
    }
}

impl Settings {
    /// How many words a store with these settings and classes takes: two more for each class.
    ///
    /// # Errors
    ///
    /// As [`Settings::words`].
    pub fn words_with(&self, classes: &ClassTable) -> Result<usize, Refusal> {
        Self::lendable(limiter_words(self.raw_with(classes)))
    }
}

/// A store with limits above its keys. `C` is the table of its classes, or a reference to one, a `Box` or an `Arc`.
///
/// [`try_acquire_through`](Store::try_acquire_through) asks through a class. All other calls ask the key's own bucket alone, and leave the classes as they are.
///
/// ```
/// # use core::time::Duration;
/// use limiter::{Class, ClassTable, Key, OwnedStore, Rate, Settings};
///
/// let mut classes = ClassTable::new();
/// let hub = classes.add(Class::per_second(50))?;
/// let node = classes.add(Class::per_second(2).parent(hub))?;
///
/// let settings = Settings::new(Rate::per_second(2).burst(4), 100);
/// let mut store = OwnedStore::with_classes(settings, classes)?;
///
/// let (now, modem) = (Duration::from_secs(5), Key::fnv1a(7));
/// assert!(store.try_acquire_through(node, now, modem, 2)?.is_acquired());
/// // The modem has two tokens left. The node has none.
/// assert_eq!(store.available(now, modem)?, 2);
/// let denied = store.try_acquire_through(node, now, modem, 1)?;
/// assert_eq!(denied.retry_after(), Some(Duration::from_millis(500)));
/// # Ok::<(), limiter::Refusal>(())
/// ```
impl<W: AsRef<[u64]>, C: AsRef<ClassTable>> Store<W, C> {
    /// A store on words that were one before, under the same settings and classes: as [`Store::resume`]. The words do not tell which classes they had, so keep
    /// [`ClassTable::numbers`] with them too.
    ///
    /// # Errors
    ///
    /// As [`Store::resume`].
    pub fn resume_with(settings: Settings, classes: C, words: W) -> Result<Self, Refusal> {
        let store = Self::over(settings, classes, words);
        store.len()?;
        Ok(store)
    }

    /// The classes.
    #[must_use]
    pub fn classes(&self) -> &ClassTable {
        self.classes.as_ref()
    }

    fn over(settings: Settings, classes: C, words: W) -> Self {
        Self {
            settings,
            raw: settings.raw_with(classes.as_ref()),
            classes,
            words,
        }
    }
}

impl<W: AsRef<[u64]> + AsMut<[u64]>, C: AsRef<ClassTable>> Store<W, C> {
    /// Makes `words` an empty store with these classes, whose buckets are full. As many are needed as [`Settings::words_with`] says.
    ///
    /// # Errors
    ///
    /// Settings out of range, or another number of words.
    pub fn set_up_with(settings: Settings, classes: C, words: W) -> Result<Self, Refusal> {
        let mut store = Self::over(settings, classes, words);
        let table = store.classes.as_ref().numbers();
        answer::done(classes::set_up(store.raw, table, store.words.as_mut()))?;
        Ok(store)
    }

    /// Takes `cost` tokens for `key`, from its bucket and from every bucket on the chain of `class` (the class, its parent and so on), if all have them now;
    /// else from none. A retry tells the longest of their waits. A retry of a new key can also mean that there is no room for it; then the classes are not
    /// asked. The try is impossible if the cost is over any of these bursts. [`Store::turned_away`] counts it if the key's own bucket denied it, and not if
    /// only a class did. A refund gives nothing back to a class.
    ///
    /// # Errors
    ///
    /// As [`Store::try_acquire`], and [`Refusal::Class`]: the table has no such class.
    pub fn try_acquire_through(
        &mut self,
        class: ClassNumber,
        now: Duration,
        key: Key,
        cost: u32,
    ) -> Result<Decision, Refusal> {
        answer::decision(classes::try_acquire(
            self.raw,
            self.classes.as_ref().numbers(),
            self.words.as_mut(),
            nanos(now),
            key.hash,
            key.key,
            class.0,
            cost,
        ))
    }

    /// Forgets all keys and debts, and fills the buckets of the classes.
    ///
    /// # Errors
    ///
    /// None on words that were set up or resumed.
    pub fn clear(&mut self) -> Result<(), Refusal> {
        let table = self.classes.as_ref().numbers();
        answer::done(classes::clear(self.raw, table, self.words.as_mut()))
    }
}
