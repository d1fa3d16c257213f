//! The smallest streams, among them those the rules print, and their frame after
//! each of the four pairs of carried bits.

use super::Entry;
use crate::bits::Bits;
use crate::line::turned_over;
use crate::rng::Rng;
use crate::samples;

/// The rules' own stream.
const PRINTED: [u8; 11] = [
    0x40, 0x66, 0x61, 0x41, 0x68, 0x7F, 0x7F, 0x6C, 0x73, 0x7F, 0x44,
];

pub(super) const STREAMS: &[Entry] = &[
    ("empty", |_| Vec::new()),
    ("lead-only", |_| vec![0x40]),
    ("other-byte-only", |_| vec![0x3F]),
    ("printed", |_| PRINTED.to_vec()),
    ("printed-turned", |_| turned_over(&PRINTED)),
    ("printed-ten-bytes", |_| PRINTED[..10].to_vec()),
    ("printed-without-lead", |_| PRINTED[1..].to_vec()),
    ("printed-twice", |_| [PRINTED, PRINTED].concat()),
    ("printed-between-others", |_| {
        PRINTED
            .iter()
            .flat_map(|byte| [0x3F, *byte, 0x80])
            .collect()
    }),
    ("printed-after-01", |_| printed_after([false, true])),
    ("printed-after-10", |_| printed_after([true, false])),
    ("printed-after-11", |_| printed_after([true, true])),
    ("every-pair", every_pair),
];

/// The words of the rules' own frame after four zeros and these two bits.
fn printed_after(pair: [bool; 2]) -> Vec<u8> {
    let mut bits = Bits(vec![false; 4]);
    bits.0.extend(pair);
    bits.push_words(&[0x66_1805, 0x03_2300]);
    bits.to_bytes()
}

/// Null frames, each after another pair of stray bits, in every order of two pairs.
fn every_pair(rng: &mut Rng) -> Vec<u8> {
    let mut bits = Bits::opened();
    for two in 0..16_u32 {
        for shift in [2, 0] {
            let pair = two >> shift;
            bits.0.extend([pair & 2 != 0, pair & 1 != 0]);
            bits.push_frame(&samples::null_frame(rng, 6, 0));
        }
    }
    bits.to_bytes()
}
