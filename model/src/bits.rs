//! A line of bits being put together: words with parity, frames, noise, slips
//! and turned bits. Used to make test streams.

use crate::frame::Frame;
use crate::line::{byte_of_bits, BITS_PER_BYTE};
use crate::rng::Rng;
use crate::word::{bits_of, encode, Pair};

/// Line bits so far.
#[derive(Clone, Debug, Default, PartialEq, Eq)]
pub struct Bits(pub Vec<bool>);

impl Bits {
    /// No bits.
    pub fn empty() -> Bits {
        Bits::default()
    }

    /// The six zero bits that open a stream.
    pub fn opened() -> Bits {
        Bits(vec![false; BITS_PER_BYTE])
    }

    /// Number of bits.
    pub fn len(&self) -> usize {
        self.0.len()
    }

    /// Whether there is no bit.
    pub fn is_empty(&self) -> bool {
        self.0.is_empty()
    }

    /// The last two bits; what is missing counts as zero.
    pub fn pair(&self) -> Pair {
        let back = |count: usize| self.len() >= count && self.0[self.len() - count];
        Pair {
            d29: back(2),
            d30: back(1),
        }
    }

    /// Appends a word of these data bits, carrying the last two bits.
    pub fn push_word(&mut self, data: u32) {
        let word = encode(&bits_of(data), self.pair());
        self.0.extend(word);
    }

    /// Appends words.
    pub fn push_words(&mut self, words: &[u32]) {
        for word in words {
            self.push_word(*word);
        }
    }

    /// Appends a frame and answers its first bit position. Any Z count goes.
    pub fn push_frame(&mut self, frame: &Frame) -> usize {
        let first = self.len();
        self.push_words(&frame.all_words());
        first
    }

    /// Appends frames back to back.
    pub fn push_frames(&mut self, frames: &[Frame]) {
        for frame in frames {
            self.push_frame(frame);
        }
    }

    /// Appends random bits.
    pub fn push_noise(&mut self, rng: &mut Rng, count: usize) {
        for _ in 0..count {
            self.0.push(rng.bit());
        }
    }

    /// Turns over one bit.
    pub fn turn(&mut self, at: usize) {
        self.0[at] = !self.0[at];
    }

    /// Turns over all bits from a position on.
    pub fn turn_from(&mut self, at: usize) {
        for bit in &mut self.0[at..] {
            *bit = !*bit;
        }
    }

    /// Takes bits out.
    pub fn remove(&mut self, at: usize, count: usize) {
        self.0.drain(at..at + count);
    }

    /// The bytes of these bits; zeros fill the last one.
    pub fn to_bytes(&self) -> Vec<u8> {
        let byte = |six: &[bool]| {
            let mut group = [false; BITS_PER_BYTE];
            group[..six.len()].copy_from_slice(six);
            byte_of_bits(group)
        };
        self.0.chunks(BITS_PER_BYTE).map(byte).collect()
    }
}
