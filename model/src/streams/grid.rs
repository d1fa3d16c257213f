//! Frames off the byte grid, and frames at the very first positions.

use super::Entry;
use crate::bits::Bits;
use crate::rng::Rng;
use crate::samples;

pub(super) const STREAMS: &[Entry] = &[
    ("off-grid-1", |rng| off_grid(rng, 1)),
    ("off-grid-2", |rng| off_grid(rng, 2)),
    ("off-grid-3", |rng| off_grid(rng, 3)),
    ("off-grid-4", |rng| off_grid(rng, 4)),
    ("off-grid-5", |rng| off_grid(rng, 5)),
    ("off-grid-changing", off_grid_changing),
    ("first-at-0", |rng| first_at(rng, 0)),
    ("first-at-1", |rng| first_at(rng, 1)),
    ("first-at-2", |rng| first_at(rng, 2)),
    ("first-at-3", |rng| first_at(rng, 3)),
];

/// Frames after the lead byte and some bits more.
fn off_grid(rng: &mut Rng, more: usize) -> Vec<u8> {
    let mut bits = Bits::opened();
    bits.push_noise(rng, more);
    bits.push_frames(&samples::frames(rng, 18));
    bits.to_bytes()
}

/// One to five bits between frames.
fn off_grid_changing(rng: &mut Rng) -> Vec<u8> {
    let mut bits = Bits::opened();
    for _ in 0..25 {
        bits.push_frame(&samples::any_frame(rng));
        let count = 1 + rng.place(5);
        bits.push_noise(rng, count);
    }
    bits.to_bytes()
}

/// No lead byte: the first frame begins at this position.
fn first_at(rng: &mut Rng, position: usize) -> Vec<u8> {
    let mut bits = Bits::empty();
    bits.push_noise(rng, position);
    bits.push_frames(&samples::frames(rng, 6));
    bits.to_bytes()
}
