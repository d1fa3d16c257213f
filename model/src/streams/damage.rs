//! Turned bits: one, two or three in a word, four that parity cannot see,
//! carried bits, bursts and plain error rates.

use super::Entry;
use crate::bits::Bits;
use crate::frame::Frame;
use crate::record::correction::Correction;
use crate::record::list::List;
use crate::rng::Rng;
use crate::samples;
use crate::word::{test, Pair};

pub(super) const STREAMS: &[Entry] = &[
    ("one-turned", |rng| turned_in_words(rng, 1)),
    ("two-turned", |rng| turned_in_words(rng, 2)),
    ("three-turned", |rng| turned_in_words(rng, 3)),
    ("four-turned-unseen", four_turned_unseen),
    ("carried-turned", carried_turned),
    ("header-turned", header_turned),
    ("errors-few", |rng| errors(rng, 2000)),
    ("errors-many", |rng| errors(rng, 150)),
    ("bursts", bursts),
];

/// Turns this many different bits among the 32 of a word and its carried pair.
fn turn_some(bits: &mut Bits, rng: &mut Rng, word_at: usize, count: usize) {
    let mut turned: Vec<usize> = Vec::new();
    while turned.len() < count {
        let at = word_at - 2 + rng.place(32);
        if !turned.contains(&at) {
            turned.push(at);
            bits.turn(at);
        }
    }
}

/// Two frames in three get turned bits in one of their words, on the line, so
/// the frame after them was written with the undamaged bits.
fn turned_in_words(rng: &mut Rng, count: usize) -> Vec<u8> {
    let mut bits = Bits::opened();
    let mut damaged = Vec::new();
    for frame in samples::frames(rng, 24) {
        let first = bits.push_frame(&frame);
        if rng.below(3) > 0 {
            damaged.push(first + 30 * rng.place(usize::from(frame.n) + 2));
        }
    }
    for word_at in damaged {
        turn_some(&mut bits, rng, word_at, count);
    }
    bits.to_bytes()
}

/// Four places of D1 to D28 whose turning parity cannot see.
fn unseen_four(rng: &mut Rng) -> [usize; 4] {
    let pair = Pair {
        d29: false,
        d30: false,
    };
    loop {
        let four = [0; 4].map(|_: usize| rng.place(28));
        let mut word = [false; 30];
        for at in four {
            word[at] = true;
        }
        if word.iter().filter(|bit| **bit).count() == 4 && test(&word, pair).passed() {
            return four;
        }
    }
}

/// Data words with four turned bits that still pass: other frames, by rule.
fn four_turned_unseen(rng: &mut Rng) -> Vec<u8> {
    let mut bits = Bits::opened();
    for _ in 0..15 {
        let frame = Correction::sample(rng, 9, 6);
        let first = bits.push_frame(&frame);
        let word = 2 + rng.place(usize::from(frame.n));
        for at in unseen_four(rng) {
            bits.turn(first + 30 * word + at);
        }
    }
    bits.to_bytes()
}

/// Every second frame has one or both of the bits before it turned, after a
/// gap of noise so that no other frame is touched.
fn carried_turned(rng: &mut Rng) -> Vec<u8> {
    let mut bits = Bits::opened();
    for (i, frame) in samples::frames(rng, 24).iter().enumerate() {
        bits.push_noise(rng, 8);
        let first = bits.push_frame(frame);
        if i % 2 == 0 {
            turn_carried(&mut bits, rng, first);
        }
    }
    bits.to_bytes()
}

fn turn_carried(bits: &mut Bits, rng: &mut Rng, first: usize) {
    match rng.below(3) {
        0 => bits.turn(first - 1),
        1 => bits.turn(first - 2),
        _ => {
            bits.turn(first - 1);
            bits.turn(first - 2);
        }
    }
}

/// Every frame but the last has one turned bit in its header.
fn header_turned(rng: &mut Rng) -> Vec<u8> {
    let mut bits = Bits::opened();
    let frames: Vec<Frame> = samples::frames(rng, 20);
    for frame in &frames[1..] {
        let first = bits.push_frame(frame);
        bits.turn(first + rng.place(58));
    }
    bits.push_frame(&frames[0]);
    bits.to_bytes()
}

/// About one bit in `rare` is turned.
fn errors(rng: &mut Rng, rare: u64) -> Vec<u8> {
    let mut bits = Bits::opened();
    bits.push_frames(&samples::frames(rng, 40));
    for at in 0..bits.len() {
        if rng.below(rare) == 0 {
            bits.turn(at);
        }
    }
    bits.to_bytes()
}

/// Runs of up to forty bits replaced by noise.
fn bursts(rng: &mut Rng) -> Vec<u8> {
    let mut bits = Bits::opened();
    bits.push_frames(&samples::frames(rng, 30));
    for _ in 0..8 {
        let from = rng.place(bits.len() - 40);
        for at in from..from + rng.place(40) {
            bits.0[at] = rng.bit();
        }
    }
    bits.to_bytes()
}
