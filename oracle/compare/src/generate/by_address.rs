//! Hardware addresses, and bytes that are none.

use oracle::Key;

use super::Plan;
use crate::random::Random;

/// The group bit.
const GROUP: u8 = 1;

/// Lengths of slices that are no addresses.
const LENGTHS: [usize; 9] = [0, 0, 1, 5, 5, 7, 7, 8, 65_536];

/// So many addresses of modems. Many differ from the first in one bit, or have its bytes in another order.
pub fn addresses(random: &mut Random, count: usize) -> Vec<[u8; 6]> {
    let first = any(random);
    let mut addresses = vec![first];
    while addresses.len() < count {
        let mut address = match random.below(4) {
            0 => any(random),
            1 => {
                let mut near = first;
                near[random.below(6) as usize] ^= 1 << random.below(8);
                near
            }
            2 => {
                let mut turned = first;
                turned.rotate_left(random.within(1, 5) as usize);
                turned
            }
            _ => {
                let mut back = first;
                back.reverse();
                back[5] ^= random.below(4) as u8;
                back
            }
        };
        address[0] &= !GROUP;
        if !addresses.contains(&address) {
            addresses.push(address);
        }
    }
    addresses
}

/// Any address of a modem.
fn any(random: &mut Random) -> [u8; 6] {
    let bytes = random.word().to_le_bytes();
    let mut address = [bytes[0], bytes[1], bytes[2], bytes[3], bytes[4], bytes[5]];
    address[0] = random.pick(&[0x00, 0x80, 0xfe, bytes[0] & !GROUP]);
    address
}

/// Bytes that are refused: the address of a group near this one, or of another length, with the group bit or without.
pub fn no_address(random: &mut Random, near: [u8; 6]) -> Vec<u8> {
    let mut bytes = near.to_vec();
    if random.chance(40) {
        bytes[0] |= GROUP;
        return bytes;
    }
    let len = random.pick(&LENGTHS);
    bytes.resize(len, random.pick(&[0, 1, 0xff]));
    if let Some(first) = bytes.first_mut() {
        *first ^= random.pick(&[0, GROUP]);
    }
    bytes
}

impl Plan {
    /// The plan over these keys.
    pub fn over(self, keys: Vec<Key>) -> Self {
        Self { keys, ..self }
    }
}
