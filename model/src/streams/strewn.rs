//! Bytes with wrong top bits: strewn into streams, or nothing else.

use super::Entry;
use crate::bits::Bits;
use crate::line::turned_over;
use crate::rng::Rng;
use crate::samples;

pub(super) const STREAMS: &[Entry] = &[
    ("strewn-light", |rng| strewn(rng, 50)),
    ("strewn-heavy", |rng| strewn(rng, 2)),
    ("strewn-turned", |rng| turned_over(&strewn(rng, 10))),
    ("only-other-bytes", only_other_bytes),
    ("every-byte-value", every_byte_value),
    ("top-bit-set", top_bit_set),
    ("one-bad-top-bit", one_bad_top_bit),
];

fn sound(rng: &mut Rng) -> Vec<u8> {
    let mut bits = Bits::opened();
    bits.push_frames(&samples::frames(rng, 20));
    bits.to_bytes()
}

/// Before about one byte in `rare` stands one that carries no bits.
fn strewn(rng: &mut Rng, rare: u64) -> Vec<u8> {
    let mut bytes = Vec::new();
    for byte in sound(rng) {
        while rng.below(rare) == 0 {
            bytes.push(rng.other_byte());
        }
        bytes.push(byte);
    }
    bytes
}

fn only_other_bytes(rng: &mut Rng) -> Vec<u8> {
    (0..300).map(|_| rng.other_byte()).collect()
}

/// A correct stream with all 256 byte values in order after its tenth byte.
fn every_byte_value(rng: &mut Rng) -> Vec<u8> {
    let mut bytes = sound(rng);
    let rest = bytes.split_off(10);
    bytes.extend(0..=255_u8);
    bytes.extend(rest);
    bytes
}

/// A correct stream sent with the highest bit of each byte set.
fn top_bit_set(rng: &mut Rng) -> Vec<u8> {
    sound(rng).iter().map(|byte| byte | 0x80).collect()
}

/// One data byte in forty has lost its second highest bit: a slip.
fn one_bad_top_bit(rng: &mut Rng) -> Vec<u8> {
    let mut bytes = sound(rng);
    for _ in 0..bytes.len() / 40 {
        let at = rng.place(bytes.len());
        bytes[at] &= 0xBF;
    }
    bytes
}
