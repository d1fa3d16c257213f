//! Polarity: whole streams turned over, and streams turned over on the way.

use super::Entry;
use crate::bits::Bits;
use crate::rng::Rng;
use crate::samples;

pub(super) const STREAMS: &[Entry] = &[
    ("turned-a", turned),
    ("turned-b", turned),
    ("turned-c", turned),
    ("turned-at-frame", |rng| turned_near_frame(rng, 0)),
    ("turned-before-frame", |rng| turned_near_frame(rng, 2)),
    ("turned-one-before", |rng| turned_near_frame(rng, 1)),
    ("turned-in-frame-a", turned_in_frame),
    ("turned-in-frame-b", turned_in_frame),
    ("turned-often", turned_often),
];

/// A correct stream and the first bit positions of its frames.
fn sound(rng: &mut Rng) -> (Bits, Vec<usize>) {
    let mut bits = Bits::opened();
    let frames = samples::frames(rng, 20);
    let places = frames.iter().map(|frame| bits.push_frame(frame)).collect();
    (bits, places)
}

fn turned(rng: &mut Rng) -> Vec<u8> {
    let (mut bits, _) = sound(rng);
    bits.turn_from(0);
    bits.to_bytes()
}

/// Turned over from some bits before the eighth frame on.
fn turned_near_frame(rng: &mut Rng, before: usize) -> Vec<u8> {
    let (mut bits, places) = sound(rng);
    bits.turn_from(places[8] - before);
    bits.to_bytes()
}

fn turned_in_frame(rng: &mut Rng) -> Vec<u8> {
    let (mut bits, _) = sound(rng);
    let at = rng.place(bits.len());
    bits.turn_from(at);
    bits.to_bytes()
}

fn turned_often(rng: &mut Rng) -> Vec<u8> {
    let (mut bits, _) = sound(rng);
    let mut at = 0;
    while at < bits.len() {
        bits.turn_from(at);
        at += 300 + rng.place(900);
    }
    bits.to_bytes()
}
