//! Noise: random bytes, noise between frames, and dull patterns.

use super::Entry;
use crate::bits::Bits;
use crate::rng::Rng;
use crate::samples;

pub(super) const STREAMS: &[Entry] = &[
    ("noise-short", |rng| data_bytes(rng, 150)),
    ("noise-1k", |rng| data_bytes(rng, 1024)),
    ("noise-4k", |rng| data_bytes(rng, 4096)),
    ("noise-any-byte", any_bytes),
    ("noise-between-a", noise_between),
    ("noise-between-b", noise_between),
    ("all-zeros", |_| vec![0x40; 300]),
    ("all-ones", |_| vec![0x7F; 300]),
    ("alternating-a", |_| vec![0x55; 300]),
    ("alternating-b", |_| vec![0x6A; 300]),
    ("all-preambles", all_preambles),
    ("valid-words", valid_words),
];

fn data_bytes(rng: &mut Rng, count: usize) -> Vec<u8> {
    (0..count).map(|_| rng.data_byte()).collect()
}

fn any_bytes(rng: &mut Rng) -> Vec<u8> {
    (0..2000).map(|_| rng.byte()).collect()
}

fn noise_between(rng: &mut Rng) -> Vec<u8> {
    let mut bits = Bits::opened();
    for _ in 0..12 {
        bits.push_frames(&samples::frames(rng, 2));
        let count = rng.place(300);
        bits.push_noise(rng, count);
    }
    bits.to_bytes()
}

/// The eight bits of the preamble over and over.
fn all_preambles(_: &mut Rng) -> Vec<u8> {
    let preamble = [false, true, true, false, false, true, true, false];
    Bits(preamble.repeat(225)).to_bytes()
}

/// Words with right parity and random data, no header among them on purpose.
fn valid_words(rng: &mut Rng) -> Vec<u8> {
    let mut bits = Bits::opened();
    for _ in 0..300 {
        bits.push_word(rng.word());
    }
    bits.to_bytes()
}
