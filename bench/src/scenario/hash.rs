//! The hash of a key, which comes with the key.

use published::Key;

/// Which hash the keys of a row have.
#[derive(Clone, Copy, PartialEq, Eq)]
pub enum Hash {
    /// Our library's, FNV-1a over the eight bytes, lowest first. It does not mix the low bits with those that choose the shard: of keys in a row, those of
    /// one shard share their low bits, which choose a place in a hash table, more often than by chance, or less often, as the sizes have it.
    Fnv1a,
    /// SplitMix64's last steps: every bit of the key moves every bit of the hash, so shards and places are as by chance.
    Mixed,
}

impl Hash {
    /// The key of this number.
    pub fn key(self, number: u64) -> Key {
        match self {
            Self::Fnv1a => published::key(number),
            Self::Mixed => Key {
                hash: mixed(number),
                key: number,
            },
        }
    }
}

fn mixed(number: u64) -> u64 {
    let number = (number ^ (number >> 30)).wrapping_mul(0xbf58_476d_1ce4_e5b9);
    let number = (number ^ (number >> 27)).wrapping_mul(0x94d0_49bb_1331_11eb);
    number ^ (number >> 31)
}
