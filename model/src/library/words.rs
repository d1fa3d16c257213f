//! The word test of one window.

use crate::word;

/// The remainder of a window, D25 the highest of six. Never refuses.
pub fn remainder(window: u32, remainder: &mut u8) -> u8 {
    let (word, pair) = word::apart(window);
    let bits = word::remainder(&word, pair);
    *remainder = bits.iter().fold(0, |sum, bit| sum * 2 + u8::from(*bit));
    0
}
