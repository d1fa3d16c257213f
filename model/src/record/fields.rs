//! Fields in the data bits of a frame's words, read and laid out bit by bit,
//! first sent bit highest.

use crate::frame::{CarriedBits, Frame, Header, MOST_WORDS};
use crate::word::bits_of;

/// The data bits of a frame's N words, in order.
pub fn data_bits(frame: &Frame) -> Vec<bool> {
    let words = &frame.words[..usize::from(frame.n)];
    words.iter().flat_map(|word| bits_of(*word)).collect()
}

/// Reads fields one after the other.
pub struct Fields {
    bits: Vec<bool>,
    at: usize,
}

impl Fields {
    /// The frame's data bits from an offset on.
    pub fn from(frame: &Frame, at: usize) -> Fields {
        Fields {
            bits: data_bits(frame),
            at,
        }
    }

    /// The next field of this width, at most 32.
    pub fn unsigned(&mut self, width: usize) -> u32 {
        let field = &self.bits[self.at..self.at + width];
        self.at += width;
        field.iter().fold(0, |sum, bit| sum << 1 | u32::from(*bit))
    }

    /// The next field of this width read as two's complement.
    pub fn signed(&mut self, width: usize) -> i64 {
        let number = i64::from(self.unsigned(width));
        if number >= 1 << (width - 1) {
            number - (1 << width)
        } else {
            number
        }
    }
}

/// Lays out fields one after the other.
#[derive(Default)]
pub struct Layer {
    bits: Vec<bool>,
}

impl Layer {
    /// Appends the low bits of a number, as many as the width.
    pub fn put(&mut self, number: i64, width: usize) {
        for i in (0..width).rev() {
            self.bits.push((number >> i) & 1 == 1);
        }
    }

    /// Appends fill to the end of the last word, bit by bit: this byte once per 8
    /// bits, from its highest bit on wherever the fill starts.
    pub fn fill(&mut self, byte: u8) {
        let mut place = 0;
        while !self.bits.len().is_multiple_of(24) {
            self.put(i64::from(byte) >> (7 - place % 8), 1);
            place += 1;
        }
    }

    /// The frame with these data bits; N is their number of words.
    pub fn frame(self, header: &Header) -> Frame {
        let mut words = [0; MOST_WORDS];
        for (word, bits) in words.iter_mut().zip(self.bits.chunks(24)) {
            *word = bits.iter().fold(0, |sum, bit| sum << 1 | u32::from(*bit));
        }
        Frame {
            header: *header,
            carried: CarriedBits::ZEROS,
            n: (self.bits.len() / 24) as u8,
            words,
        }
    }
}

/// Whether bits are alternating ones and zeros, a one first: the standard fill.
pub fn alternates(bits: &[bool]) -> bool {
    bits.iter().enumerate().all(|(i, bit)| *bit == (i % 2 == 0))
}

/// A satellite's five-bit code: 0 means 32.
pub fn satellite_of(code: u32) -> u8 {
    if code == 0 {
        32
    } else {
        code as u8
    }
}

/// The five-bit code of a satellite 1 to 32.
pub fn code_of(satellite: u8) -> i64 {
    i64::from(satellite % 32)
}
