//! Moves a store between the first layout of the words, which boxes in the field hold, and the present one.

use limiter_sys::converter::{self, limiter_words_01};

use crate::Settings;
use crate::answer::{self, Refusal};

impl Settings {
    /// How many words the first layout has for these settings. It follows from the sizes alone; the rate is not looked at.
    ///
    /// # Errors
    ///
    /// [`Refusal::Sizes`]: more than 4,096 keys or 64 shards.
    pub fn first_layout_words(&self) -> Result<usize, Refusal> {
        Self::lendable(limiter_words_01(self.raw()))
    }
}

/// Makes the words of `target` the store of `source`, which has the first layout, in the present layout without classes. Any words are safe. All words of the
/// target are written, whatever stood in them; the store is then resumed with [`Store::resume`](crate::Store::resume).
///
/// # Errors
///
/// With the target as it was: settings out of range, more than 4,096 keys, another number of words than [`Settings::first_layout_words`] for the source or
/// than [`Settings::words`] for the target, a count that is more than a shard holds, [`Refusal::Twins`], [`Refusal::UsedPast`].
pub fn convert_forth(
    settings: Settings,
    source: &[u64],
    target: &mut [u64],
) -> Result<(), Refusal> {
    answer::done(converter::forth(settings.raw(), source, target))
}

/// Makes the words of `target` the store of `source`, which has the present layout without classes, in the first layout.
///
/// # Errors
///
/// As [`convert_forth`], with the two lengths the other way round; and [`Refusal::Memory`] for an index or a total that is not as a grown store has it.
pub fn convert_back(settings: Settings, source: &[u64], target: &mut [u64]) -> Result<(), Refusal> {
    answer::done(converter::back(settings.raw(), source, target))
}
