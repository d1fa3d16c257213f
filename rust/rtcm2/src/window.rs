//! The word test by itself, for a program that holds the words of two receivers against each other.

use crate::ffi;

/// The remainder of a window: 32 line bits, D29*, D30* and then D1 to D30, the first sent highest.
/// 0 where the word passes, else 1 to 63. The remainder of an xor of two windows is the xor of theirs.
pub fn remainder(window: u32) -> u8 {
    let mut remainder = 0;
    ffi::rtcm2_remainder(window, &mut remainder).expect("never refused");
    remainder
}
