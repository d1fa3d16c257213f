//! Slips: data bytes dropped, put in, doubled or swapped in correct streams.

use super::Entry;
use crate::bits::Bits;
use crate::rng::Rng;
use crate::samples;

pub(super) const STREAMS: &[Entry] = &[
    ("drop-one-a", |rng| drop_runs(rng, 1, 1)),
    ("drop-one-b", |rng| drop_runs(rng, 1, 1)),
    ("drop-three", |rng| drop_runs(rng, 3, 1)),
    ("drop-often", |rng| drop_runs(rng, 20, 1)),
    ("drop-run", |rng| drop_runs(rng, 3, 7)),
    ("drop-lead", drop_lead),
    ("insert-one", |rng| insert_runs(rng, 1, 1)),
    ("insert-three", |rng| insert_runs(rng, 3, 1)),
    ("insert-often", |rng| insert_runs(rng, 20, 1)),
    ("insert-run", |rng| insert_runs(rng, 3, 9)),
    ("double-bytes", double_bytes),
    ("swap-bytes", swap_bytes),
];

/// A correct stream to begin with.
fn sound(rng: &mut Rng) -> Vec<u8> {
    let mut bits = Bits::opened();
    let count = 18 + rng.place(10);
    bits.push_frames(&samples::frames(rng, count));
    bits.to_bytes()
}

fn drop_runs(rng: &mut Rng, times: usize, length: usize) -> Vec<u8> {
    let mut bytes = sound(rng);
    for _ in 0..times {
        let at = rng.place(bytes.len() - length);
        bytes.drain(at..at + length);
    }
    bytes
}

fn drop_lead(rng: &mut Rng) -> Vec<u8> {
    sound(rng).split_off(1)
}

fn insert_runs(rng: &mut Rng, times: usize, length: usize) -> Vec<u8> {
    let mut bytes = sound(rng);
    for _ in 0..times {
        let at = rng.place(bytes.len());
        for _ in 0..length {
            bytes.insert(at, rng.data_byte());
        }
    }
    bytes
}

fn double_bytes(rng: &mut Rng) -> Vec<u8> {
    let mut bytes = sound(rng);
    for _ in 0..6 {
        let at = rng.place(bytes.len());
        bytes.insert(at, bytes[at]);
    }
    bytes
}

fn swap_bytes(rng: &mut Rng) -> Vec<u8> {
    let mut bytes = sound(rng);
    for _ in 0..6 {
        let at = rng.place(bytes.len() - 1);
        bytes.swap(at, at + 1);
    }
    bytes
}
