//! Everything at once: frames, noise and lone headers, then several kinds of
//! damage one after the other.

use super::Entry;
use crate::bits::Bits;
use crate::frame::header_words;
use crate::mangle::mangle;
use crate::rng::Rng;
use crate::samples;

pub(super) const STREAMS: &[Entry] = &[
    ("mixed-a", mixed),
    ("mixed-b", mixed),
    ("mixed-c", mixed),
    ("mixed-d", mixed),
    ("mixed-e", mixed),
    ("mixed-f", mixed),
];

fn mixed(rng: &mut Rng) -> Vec<u8> {
    let mut bits = Bits::opened();
    for _ in 0..30 {
        push_piece(&mut bits, rng);
    }
    let mut bytes = bits.to_bytes();
    for _ in 0..10 {
        mangle(&mut bytes, rng);
    }
    bytes
}

/// Appends a frame, or now and then noise or a lone header.
fn push_piece(bits: &mut Bits, rng: &mut Rng) {
    match rng.below(8) {
        0 => {
            let count = rng.place(60);
            bits.push_noise(rng, count);
        }
        1 => {
            let n = rng.below(32) as u8;
            bits.push_words(&header_words(&samples::header(rng, 1), n));
        }
        _ => {
            bits.push_frame(&samples::any_frame(rng));
        }
    }
}
