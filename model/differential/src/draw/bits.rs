//! Line bits and bytes: frames, false headers, noise, turned bits, bytes without
//! bits.

use rtcm2_model::bits::Bits;
use rtcm2_model::frame::header_words;
use rtcm2_model::line::turned_over;
use rtcm2_model::mangle::mangle;
use rtcm2_model::rng::Rng;
use rtcm2_model::samples;

/// A few frames, false headers and noise.
pub fn line_bits(rng: &mut Rng) -> Bits {
    let mut bits = match rng.below(2) {
        0 => Bits::empty(),
        _ => Bits::opened(),
    };
    for _ in 0..1 + rng.place(5) {
        match rng.below(10) {
            0 => {
                let count = rng.place(70);
                bits.push_noise(rng, count);
            }
            1 => false_header(rng, &mut bits),
            2 => bits.turn_from(bits.len()),
            3 => {
                let frame = samples::any_null_frame(rng, 6);
                bits.push_frame(&frame);
            }
            4 => {
                let (kind, n) = (1 + rng.below(64) as u16, 31);
                let frame = samples::plain_frame(rng, kind, n);
                bits.push_frame(&frame);
            }
            _ => {
                let frame = samples::any_frame(rng);
                bits.push_frame(&frame);
            }
        }
    }
    bits
}

/// A right header and some right words, but fewer than its N.
fn false_header(rng: &mut Rng, bits: &mut Bits) {
    let header = samples::header(rng, 1);
    let n = 1 + rng.below(31) as u8;
    bits.push_words(&header_words(&header, n));
    for _ in 0..rng.place(n.into()) {
        let word = rng.word();
        bits.push_word(word);
    }
}

/// The bytes of such bits, some damaged, in either polarity; seldom with more bytes
/// without bits among them than eight or sixteen bits count.
pub fn line_bytes(rng: &mut Rng) -> Vec<u8> {
    let mut bytes = line_bits(rng).to_bytes();
    for _ in 0..rng.place(4) {
        mangle(&mut bytes, rng);
    }
    let more = match rng.below(4000) {
        0..=2 => (1 << 16) + rng.place(300),
        3..=22 => (1 << 8) + rng.place(300),
        _ => 0,
    };
    let at = rng.place(bytes.len() + 1);
    bytes.splice(at..at, (0..more).map(|_| rng.other_byte()));
    match rng.below(3) {
        0 => turned_over(&bytes),
        _ => bytes,
    }
}
