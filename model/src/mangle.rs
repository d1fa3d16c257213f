//! Damage to the bytes of a stream, of one random kind at a time.

use crate::line::turned_over;
use crate::rng::Rng;

/// Drops a byte, puts in a data byte or another, turns one bit, or turns over
/// the rest of the stream.
pub fn mangle(bytes: &mut Vec<u8>, rng: &mut Rng) {
    if bytes.is_empty() {
        return;
    }
    let at = rng.place(bytes.len());
    match rng.below(5) {
        0 => {
            bytes.remove(at);
        }
        1 => bytes.insert(at, rng.data_byte()),
        2 => bytes.insert(at, rng.other_byte()),
        3 => bytes[at] ^= 1 << rng.below(6),
        _ => {
            let rest = bytes.split_off(at);
            bytes.extend(turned_over(&rest));
        }
    }
}
