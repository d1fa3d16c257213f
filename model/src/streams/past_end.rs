//! The end of the stream: headers whose N points past it, and streams cut at
//! their end or their beginning.

use super::Entry;
use crate::bits::Bits;
use crate::frame::header_words;
use crate::rng::Rng;
use crate::samples;

pub(super) const STREAMS: &[Entry] = &[
    ("past-end-alone", |rng| past_end(rng, 1, 0)),
    ("past-end-covers-a", |rng| past_end(rng, 1, 6)),
    ("past-end-covers-b", |rng| past_end(rng, 1, 15)),
    ("past-end-nested", |rng| past_end(rng, 5, 8)),
    ("past-end-off-grid", past_end_off_grid),
    ("cut-last-byte", |rng| cut(rng, 0, 1)),
    ("cut-last-frame-a", |rng| cut_last_frame(rng, 31, 0)),
    ("cut-last-frame-b", |rng| cut_last_frame(rng, 12, 1)),
    ("cut-in-header", |rng| cut_last_frame(rng, 8, 41)),
    ("cut-front-a", |rng| cut(rng, 1, 0)),
    ("cut-front-b", |rng| cut(rng, 23, 0)),
    ("cut-both", |rng| cut(rng, 37, 11)),
];

/// Frames, then lone headers with N 31, then null frames without data that the
/// stream's end releases.
fn past_end(rng: &mut Rng, headers: usize, nulls: usize) -> Vec<u8> {
    let mut bits = Bits::opened();
    bits.push_frames(&samples::frames(rng, 8));
    for _ in 0..headers {
        bits.push_words(&header_words(&samples::header(rng, 9), 31));
    }
    for _ in 0..nulls {
        bits.push_frame(&samples::null_frame(rng, 6, 0));
    }
    bits.to_bytes()
}

/// As `past_end`, with a last frame after three bits too many.
fn past_end_off_grid(rng: &mut Rng) -> Vec<u8> {
    let mut bits = Bits::opened();
    bits.push_frames(&samples::frames(rng, 5));
    bits.push_words(&header_words(&samples::header(rng, 1), 31));
    bits.push_noise(rng, 3);
    bits.push_frame(&samples::text_frame(rng, 16, 20));
    bits.push_words(&header_words(&samples::header(rng, 5), 30));
    bits.push_frame(&samples::position_frame(rng, 3));
    bits.to_bytes()
}

/// A correct stream without some bytes at its front and at its end.
fn cut(rng: &mut Rng, front: usize, back: usize) -> Vec<u8> {
    let mut bits = Bits::opened();
    bits.push_frames(&samples::frames(rng, 16));
    let bytes = bits.to_bytes();
    bytes[front..bytes.len() - back].to_vec()
}

/// The last frame has this N; all but `left` of its bits are cut, or half of
/// them when `left` is 0.
fn cut_last_frame(rng: &mut Rng, n: u8, left: usize) -> Vec<u8> {
    let mut bits = Bits::opened();
    bits.push_frames(&samples::frames(rng, 10));
    let first = bits.push_frame(&samples::plain_frame(rng, 7, n));
    let half = (bits.len() - first) / 2;
    bits.0.truncate(first + if left == 0 { half } else { left });
    bits.to_bytes()
}
