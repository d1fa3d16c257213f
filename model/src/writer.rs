//! The writer: opens a stream with the lead byte and writes frames back to
//! back, carrying the last two line bits on.

use crate::frame::{check_frame, CarriedBits, Frame, Z_COUNTS};
use crate::line::{byte_of_bits, BITS_PER_BYTE};
use crate::refusal::{refuse_if, Answer, Refusal};
use crate::word::{bits_of, encode, Pair};

/// The byte that opens a stream: six zero bits.
pub const LEAD_BYTE: u8 = 0x40;

/// What was written.
#[derive(Clone, Copy, Debug, PartialEq, Eq)]
pub struct Written {
    /// Bytes written, from the buffer's first on.
    pub length: usize,
    /// The bits carried on.
    pub carried: CarriedBits,
}

/// Line bits of words, one after the other.
pub fn line_bits(words: &[u32], mut pair: Pair) -> Vec<bool> {
    let mut bits = Vec::new();
    for word in words {
        let line = encode(&bits_of(*word), pair);
        pair = Pair {
            d29: line[28],
            d30: line[29],
        };
        bits.extend(line);
    }
    bits
}

/// Opens a stream. Refuses with 13.
pub fn open(buffer: &mut [u8]) -> Answer<Written> {
    refuse_if(buffer.is_empty(), Refusal::BufferTooShort)?;
    buffer[0] = LEAD_BYTE;
    Ok(Written {
        length: 1,
        carried: CarriedBits::ZEROS,
    })
}

/// Writes a frame after the carried bits, whatever bits it has of its own. Refuses
/// with 5, 7, 13.
pub fn write(frame: &Frame, carried: CarriedBits, buffer: &mut [u8]) -> Answer<Written> {
    check_frame(frame)?;
    carried.check()?;
    refuse_if(frame.header.z_count >= Z_COUNTS, Refusal::ZCount)?;
    let length = 5 * (usize::from(frame.n) + 2);
    refuse_if(buffer.len() < length, Refusal::BufferTooShort)?;
    let pair = Pair {
        d29: carried.d29 == 1,
        d30: carried.d30 == 1,
    };
    let bits = line_bits(&frame.all_words(), pair);
    for (place, six) in buffer.iter_mut().zip(bits.chunks_exact(BITS_PER_BYTE)) {
        let mut group = [false; BITS_PER_BYTE];
        group.copy_from_slice(six);
        *place = byte_of_bits(group);
    }
    let carried = CarriedBits {
        d29: u8::from(bits[bits.len() - 2]),
        d30: u8::from(bits[bits.len() - 1]),
    };
    Ok(Written { length, carried })
}
