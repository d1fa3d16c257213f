//! Correction data chosen so that a false header, with right parity, stands off
//! the word grid inside it.

use crate::bits::Bits;
use crate::frame::{header_words, n_of, preamble_is_right};
use crate::rng::Rng;
use crate::samples;
use crate::word::{data_bits, number_of, test, Pair};

/// What to hide.
pub(super) struct Hidden {
    /// Bits from the start of a word to the false header, at most 24.
    pub offset: usize,
    /// N in the false header.
    pub n: u8,
    /// Words with right parity after the false header, at most 20.
    pub more: usize,
}

/// Appends a type 1 frame of 18 satellites that hides a false header; answers
/// where the frame and where the false header begin.
pub(super) fn push_hiding(bits: &mut Bits, rng: &mut Rng, hidden: &Hidden) -> (usize, usize) {
    let first = bits.len();
    bits.push_words(&header_words(&samples::header(rng, 1), 30));
    for _ in 0..5 {
        bits.push_word(rng.word());
    }
    let place = bits.len() + hidden.offset;
    push_hidden_words(bits, rng, hidden);
    while bits.len() < first + 30 * 32 {
        bits.push_word(rng.word());
    }
    (first, place)
}

/// Appends words one by one, each drawn anew until the false word that ends in
/// its first bits is right.
fn push_hidden_words(bits: &mut Bits, rng: &mut Rng, hidden: &Hidden) {
    let low = (1_u32 << (24 - hidden.offset)) - 1;
    let place = bits.len() + hidden.offset;
    let mut fixed = rng.word() & !low;
    for number in 0..hidden.more + 2 {
        let word_start = place - hidden.offset + 30 * number;
        loop {
            bits.0.truncate(word_start);
            bits.push_word(fixed | rng.word() & low);
            let next = rng.word();
            bits.push_word(next);
            if false_word_is_right(&bits.0, place, number, hidden.n) {
                fixed = next & !low;
                break;
            }
            if number == 0 {
                fixed = rng.word() & !low;
            }
        }
    }
}

/// Whether the false word of this number has right parity, and preamble or N
/// where it is a header word.
fn false_word_is_right(bits: &[bool], place: usize, number: usize, n: u8) -> bool {
    let at = place + 30 * number;
    let mut word = [false; 30];
    word.copy_from_slice(&bits[at..at + 30]);
    let pair = Pair {
        d29: bits[at - 2],
        d30: bits[at - 1],
    };
    let data = number_of(&data_bits(&word, pair));
    let header = match number {
        0 => preamble_is_right(data),
        1 => n_of(data) == n,
        _ => true,
    };
    header && test(&word, pair).passed()
}
