//! The quick test of a word: its 32 bits with the carried pair as one number,
//! D29* highest. The masks are worked out from the table of `word`.

use crate::frame::CarriedBits;
use crate::word::{Carried, Row, Tested, TABLE};

/// D30* in a window.
const D30: u32 = 1 << 30;

/// Bits that must hold an even number of ones, one mask for each table row.
const MASKS: [u32; 6] = [
    mask(&TABLE[0], 5),
    mask(&TABLE[1], 4),
    mask(&TABLE[2], 3),
    mask(&TABLE[3], 2),
    mask(&TABLE[4], 1),
    mask(&TABLE[5], 0),
];

/// The row's terms over line bits, with the parity bit itself. Each data bit
/// brings D30* in once more.
const fn mask(row: &Row, parity_bit: u32) -> u32 {
    let mut bits = 1 << parity_bit;
    bits ^= match row.carried {
        Carried::D29 => 1 << 31,
        Carried::D30 => D30,
    };
    let mut i = 0;
    while i < row.data.len() {
        bits ^= 1 << (30 - row.data[i]);
        bits ^= D30;
        i += 1;
    }
    bits
}

/// Tests the word in this window.
#[inline]
pub fn test(window: u32) -> Tested {
    let odd = |mask: u32| (window & mask).count_ones() as u8 % 2;
    Tested::of(MASKS.iter().fold(0, |sum, mask| sum << 1 | odd(*mask)))
}

/// The two bits before the word in this window.
#[inline]
pub fn carried(window: u32) -> CarriedBits {
    CarriedBits {
        d29: (window >> 31) as u8,
        d30: (window >> 30) as u8 % 2,
    }
}

/// The 24 data bits of the word in this window.
#[inline]
pub fn data(window: u32) -> u32 {
    let turned = if window & D30 == 0 { 0 } else { 0xFF_FFFF };
    ((window >> 6) & 0xFF_FFFF) ^ turned
}
