//! The lines that the desk prints.

use std::io::{self, Write};

/// The most bytes of a printed line: three numbers of 20 digits, and a byte after each.
const LONGEST: usize = 63;

/// `00` to `99`.
const PAIRS: [[u8; 2]; 100] = {
    let mut pairs = [[b'0'; 2]; 100];
    let mut i = 0;
    while i < 100 {
        pairs[i] = [b'0' + (i / 10) as u8, b'0' + (i % 10) as u8];
        i += 1;
    }
    pairs
};

/// Prints a line's number, a code and a wait.
pub fn line(out: &mut impl Write, numbers: [u64; 3]) -> io::Result<()> {
    let mut bytes = [b' '; LONGEST];
    // From the last byte to the first: the digits of a number come in that order.
    let mut at = LONGEST;
    bytes[at - 1] = b'\n';
    for number in numbers.into_iter().rev() {
        at = digits(&mut bytes, at - 1, number);
    }
    out.write_all(&bytes[at..])
}

/// Puts the digits of a number before a place, two at a time. Tells where they begin.
fn digits(bytes: &mut [u8; LONGEST], end: usize, number: u64) -> usize {
    let (mut at, mut rest) = (end, number);
    while rest >= 10 {
        at -= 2;
        bytes[at..at + 2].copy_from_slice(&PAIRS[(rest % 100) as usize]);
        rest /= 100;
    }
    if rest > 0 || at == end {
        at -= 1;
        bytes[at] = b'0' + rest as u8;
    }
    at
}
