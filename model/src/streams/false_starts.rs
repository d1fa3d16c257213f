//! False starts: preambles and whole headers in correction data and in noise,
//! covering good frames, failing late, or standing by the definition.

use super::hiding::{push_hiding, Hidden};
use super::Entry;
use crate::bits::Bits;
use crate::frame::{header_words, Frame};
use crate::record::correction::Correction;
use crate::record::health::Health;
use crate::record::list::List;
use crate::rng::Rng;
use crate::samples;

pub(super) const STREAMS: &[Entry] = &[
    ("preambles-in-data", preambles_in_data),
    ("false-covered", false_covered),
    ("false-off-grid-a", |rng| false_off_grid(rng, 3, 31, 0)),
    ("false-off-grid-b", |rng| false_off_grid(rng, 7, 31, 20)),
    ("false-off-grid-c", |rng| false_off_grid(rng, 13, 25, 18)),
    ("false-off-grid-d", |rng| false_off_grid(rng, 16, 31, 20)),
    ("false-off-grid-stands", |rng| {
        false_off_grid(rng, 5, 12, 12)
    }),
    ("false-on-grid-a", |rng| false_on_grid(rng, true)),
    ("false-on-grid-b", |rng| false_on_grid(rng, true)),
    ("false-on-grid-stands", |rng| false_on_grid(rng, false)),
    ("false-last-word", false_last_word),
    ("false-nested", false_nested),
    ("false-between-frames", false_between_frames),
    ("frame-in-noise-a", frame_in_noise),
    ("frame-in-noise-b", frame_in_noise),
    ("frame-in-broken-frame", frame_in_broken_frame),
];

/// The two words of a header that belongs to no frame.
fn lone_header(rng: &mut Rng, n: u8) -> [u32; 2] {
    header_words(&samples::header(rng, 1), n)
}

/// Small frames, two to five words each.
fn small_frames(rng: &mut Rng, count: usize) -> Vec<Frame> {
    let small = |rng: &mut Rng| match rng.below(3) {
        0 => samples::any_null_frame(rng, 6),
        1 => samples::text_frame(rng, 16, 5),
        _ => Health::sample(rng, 5, 3),
    };
    (0..count).map(|_| small(rng)).collect()
}

/// Corrections full of preambles at every place, without right parity.
fn preambles_in_data(rng: &mut Rng) -> Vec<u8> {
    let mut bits = Bits::opened();
    for shift in 0..8 {
        let mut frame = Correction::sample(rng, 1, 18);
        frame.words[..30].fill((0x6666_6666_u32 >> shift) & 0xFF_FFFF);
        bits.push_frame(&frame);
        bits.push_frames(&small_frames(rng, 2));
    }
    bits.to_bytes()
}

/// Undamaged frames with false headers inside: the good frames cover them.
fn false_covered(rng: &mut Rng) -> Vec<u8> {
    let mut bits = Bits::opened();
    for offset in [2, 9, 15] {
        let hidden = Hidden {
            offset,
            n: 31,
            more: 4,
        };
        push_hiding(&mut bits, rng, &hidden);
        bits.push_frames(&small_frames(rng, 3));
    }
    bits.to_bytes()
}

/// A frame that hides a false header has its first word damaged; good frames
/// follow, within the false header's reach.
fn false_off_grid(rng: &mut Rng, offset: usize, n: u8, more: usize) -> Vec<u8> {
    let mut bits = Bits::opened();
    bits.push_frames(&samples::frames(rng, 4));
    for _ in 0..3 {
        let (first, _) = push_hiding(&mut bits, rng, &Hidden { offset, n, more });
        bits.turn(first + rng.place(30));
        for _ in 0..2 {
            bits.push_frame(&samples::any_null_frame(rng, 6));
        }
        bits.push_frames(&small_frames(rng, 6));
    }
    bits.push_frames(&samples::frames(rng, 4));
    bits.to_bytes()
}

/// Correction data hold a header on the word grid, with N 31; the frame's own
/// first word is damaged. Every word the false header covers passes, until a
/// dropped bit if there is a slip.
fn false_on_grid(rng: &mut Rng, slip: bool) -> Vec<u8> {
    let mut bits = Bits::opened();
    bits.push_frames(&samples::frames(rng, 3));
    for _ in 0..4 {
        let mut frame = Correction::sample(rng, 1, 18);
        let at = 24 + rng.place(5);
        frame.words[at..at + 2].copy_from_slice(&lone_header(rng, 31));
        let first = bits.push_frame(&frame);
        bits.turn(first + rng.place(30));
        bits.push_frames(&small_frames(rng, 5));
        if slip {
            let last = bits.len() - 1;
            bits.remove(last, 1);
        }
        bits.push_frames(&small_frames(rng, 9));
    }
    bits.to_bytes()
}

/// A lone header with N 31, then fifteen null frames without data and a word with
/// one turned bit: the last of the 33 words fails and releases all fifteen at once.
fn false_last_word(rng: &mut Rng) -> Vec<u8> {
    let mut bits = Bits::opened();
    for _ in 0..3 {
        bits.push_words(&lone_header(rng, 31));
        for _ in 0..15 {
            bits.push_frame(&samples::null_frame(rng, 6, 0));
        }
        let broken = bits.push_frame(&samples::text_frame(rng, 16, 9));
        bits.turn(broken + rng.place(30));
        bits.push_frames(&small_frames(rng, 3));
    }
    bits.to_bytes()
}

/// Six lone headers in a row, each reaching past the next; then good frames,
/// a dropped bit and more good frames.
fn false_nested(rng: &mut Rng) -> Vec<u8> {
    let mut bits = Bits::opened();
    for _ in 0..3 {
        for _ in 0..6 {
            bits.push_words(&lone_header(rng, 31));
        }
        bits.push_frames(&small_frames(rng, 4));
        let at = bits.len() - 10;
        bits.remove(at, 1);
        bits.push_frames(&small_frames(rng, 12));
    }
    bits.to_bytes()
}

/// Lone headers of every N between good frames, some bits off the grid.
fn false_between_frames(rng: &mut Rng) -> Vec<u8> {
    let mut bits = Bits::opened();
    for n in 1..32 {
        bits.push_words(&lone_header(rng, n));
        let gap = 1 + rng.place(29);
        bits.push_noise(rng, gap);
        bits.push_frames(&small_frames(rng, 2));
    }
    bits.to_bytes()
}

/// Noise, one frame standing in it after two bits of noise, noise again.
fn frame_in_noise(rng: &mut Rng) -> Vec<u8> {
    let mut bits = Bits::empty();
    for _ in 0..6 {
        let before = 20 + rng.place(900);
        bits.push_noise(rng, before);
        bits.push_frame(&samples::any_frame(rng));
    }
    bits.push_noise(rng, 400);
    bits.to_bytes()
}

/// A long frame is overwritten in its middle by a whole small frame off the
/// grid: the long one fails there and the small one stands.
fn frame_in_broken_frame(rng: &mut Rng) -> Vec<u8> {
    let mut bits = Bits::opened();
    for _ in 0..5 {
        let first = bits.push_frame(&samples::plain_frame(rng, 2, 31));
        let at = first + 62 + rng.place(600);
        let mut inner = Bits(bits.0[..at].to_vec());
        inner.push_frame(&samples::text_frame(rng, 16, 6));
        bits.0[at..inner.len()].copy_from_slice(&inner.0[at..]);
        bits.push_frames(&small_frames(rng, 2));
    }
    bits.to_bytes()
}
