//! Words that fail: with an odd or an even remainder, without their preamble, under
//! a false header, and behind the end.

use super::Entry;

pub(super) const STREAMS: &[Entry] = &[
    ("nick-in-word-1", |_| NICK_IN_WORD_1.to_vec()),
    ("two-turned-in-word-2", |_| TWO_TURNED_IN_WORD_2.to_vec()),
    ("preamble-and-word-1", |_| PREAMBLE_AND_WORD_1.to_vec()),
    ("nick-then-frame", |_| NICK_THEN_FRAME.to_vec()),
    ("ruled-out-by-end", |_| RULED_OUT_BY_END.to_vec()),
    ("stray-bit", |_| STRAY_BIT.to_vec()),
];

/// One bit of word 1 is turned, behind the preamble: odd.
pub const NICK_IN_WORD_1: [u8; 11] = *b"\x40\x66\x61\x45\x68\x7F\x7F\x6C\x73\x7F\x44";

/// Two bits of word 2 are turned: even.
pub const TWO_TURNED_IN_WORD_2: [u8; 11] = *b"\x40\x66\x61\x41\x68\x7F\x4F\x6C\x73\x7F\x44";

/// A bit of the preamble and another one of word 1 are turned: neither.
pub const PREAMBLE_AND_WORD_1: [u8; 11] = *b"\x40\x64\x61\x45\x68\x7F\x7F\x6C\x73\x7F\x44";

/// One bit of word 2 is turned, and the next frame is right: odd, and a frame.
pub const NICK_THEN_FRAME: [u8; 21] =
    *b"\x40\x66\x61\x41\x68\x7F\x7F\x6C\x77\x7F\x44\x66\x61\x41\x68\x7F\x7F\x6C\x73\x7F\x44";

/// A false header with N 31 and a right word, then a null frame: the end rules the
/// header out, and of the positions behind it one fails with its preamble.
pub const RULED_OUT_BY_END: [u8; 26] =
    *b"\x40\x66\x41\x42\x68\x48\x40\x53\x7C\x47\x40\x48\x71\x62\x5A\x60\x59\x5E\x7E\x57\x65\x7F\x6C\x73\x7F\x61";

/// The same with a stray bit before the null frame: read a bit off, word 4 of the
/// header happens to pass, and word 5 fails.
pub const STRAY_BIT: [u8; 27] =
    *b"\x40\x66\x41\x42\x68\x48\x40\x53\x7C\x47\x40\x48\x71\x62\x5A\x60\x73\x7C\x7C\x6F\x40\x40\x66\x58\x40\x76\x41";
