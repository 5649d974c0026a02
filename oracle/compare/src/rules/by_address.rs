//! Request 4 of 02, calls by hardware address: which bytes are an address, and the key of one. All else is the call on that key.

use oracle::Key;

use super::decision;
use crate::branches::Hits;
use crate::by_address::ByAddress;
use crate::given::Given;
use crate::reply::Reply;

/// What FNV-1a starts at and multiplies by.
const START: u64 = 0xcbf2_9ce4_8422_2325;
const PRIME: u64 = 0x0000_0100_0000_01b3;

/// What a call by address answers, and what it makes of `words`: its address is looked at before all else.
pub fn answer(given: &Given, words: &mut [u64], call: &ByAddress, hits: &mut Hits) -> Reply {
    match key(&call.bytes) {
        Ok(key) => super::answer(given, words, &call.on(key), hits),
        Err(number) => decision::refused(number),
    }
}

/// The key of an address, or the refusal by number: 11 for bytes that are not six, 12 for the address of a group.
pub fn key(bytes: &[u8]) -> Result<Key, u8> {
    let &[a, b, c, d, e, f] = bytes else {
        return Err(11);
    };
    if a & 1 != 0 {
        return Err(12);
    }
    let hash = bytes.iter().fold(START, |hash, &byte| {
        (hash ^ u64::from(byte)).wrapping_mul(PRIME)
    });
    Ok(Key {
        hash,
        key: u64::from_be_bytes([0, 0, a, b, c, d, e, f]),
    })
}

#[cfg(test)]
mod tests {
    use super::*;

    /// The hashes were worked out by another program.
    #[test]
    fn keys_of_addresses() {
        let of = |bytes: [u8; 6]| key(&bytes).expect("an address");
        let modem = of([0x00, 0x1a, 0x2b, 0x3c, 0x4d, 0x5e]);
        assert_eq!(modem.hash, 0xa6a1_1141_cd93_5a8b);
        assert_eq!(modem.key, 0x001a_2b3c_4d5e);
        assert_eq!(of([0; 6]).hash, 0xd7e4_fcfa_299d_713d);
        assert_eq!(key(&[1, 0, 0, 0, 0, 0]), Err(12));
        assert_eq!(key(&[1, 0, 0, 0, 0]), Err(11));
    }
}
