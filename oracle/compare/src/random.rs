//! Reproducible random numbers (SplitMix64).

/// A stream of numbers that a seed and a stream number fix.
pub struct Random(u64);

impl Random {
    /// The stream of this number under this seed.
    pub fn new(seed: u64, stream: u64) -> Self {
        let mut random = Self(seed.wrapping_mul(0x9e37_79b9_7f4a_7c15) ^ stream);
        Self(random.word() ^ stream.rotate_left(32))
    }

    /// Any 64-bit number.
    pub fn word(&mut self) -> u64 {
        self.0 = self.0.wrapping_add(0x9e37_79b9_7f4a_7c15);
        let mixed = (self.0 ^ (self.0 >> 30)).wrapping_mul(0xbf58_476d_1ce4_e5b9);
        let mixed = (mixed ^ (mixed >> 27)).wrapping_mul(0x94d0_49bb_1331_11eb);
        mixed ^ (mixed >> 31)
    }

    /// A number below `end`, which is not 0.
    pub fn below(&mut self, end: u64) -> u64 {
        ((u128::from(self.word()) * u128::from(end)) >> 64) as u64
    }

    /// A number from `first` to `last`; `first` if `last` is smaller.
    pub fn within(&mut self, first: u64, last: u64) -> u64 {
        match last.saturating_sub(first) {
            u64::MAX => self.word(),
            span => first + self.below(span + 1),
        }
    }

    /// True in so many of a hundred cases.
    pub fn chance(&mut self, percent: u64) -> bool {
        self.below(100) < percent
    }

    /// One of `items`.
    pub fn pick<T: Copy>(&mut self, items: &[T]) -> T {
        items[self.below(items.len() as u64) as usize]
    }

    /// A number up to `last` of any length in bits: small ones come as often as large ones.
    pub fn any_size(&mut self, last: u64) -> u64 {
        let bits = self.below(u64::from(65 - last.leading_zeros()));
        if bits == 0 {
            return 0;
        }
        let first = 1 << (bits - 1);
        self.within(first, last.min((first - 1) + first))
    }

    /// A number from 1 to `last` of any length in bits.
    pub fn some_size(&mut self, last: u64) -> u64 {
        self.any_size(last).max(1)
    }
}
