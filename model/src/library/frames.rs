//! Frames of any type and their journal records.

use super::{keep_frame, numbered, Head};
use crate::frame::{CarriedBits, Frame, MOST_WORDS};
use crate::journal;
use crate::refusal::{refuse_if, Answer, Refusal};

/// Keeps a frame of this header and the data words in `data`. Refuses with 5, 13.
pub fn keep(head: Head, data: &[u8], frame: &mut [u8], length: &mut usize) -> u8 {
    numbered(kept(head, data, frame, length))
}

fn kept(head: Head, data: &[u8], frame: &mut [u8], length: &mut usize) -> Answer<()> {
    let (n, rest) = (data.len() / 3, data.len() % 3);
    refuse_if(n > MOST_WORDS || rest > 0, Refusal::OutsideWidths)?;
    let mut words = [0; MOST_WORDS];
    for (word, three) in words.iter_mut().zip(data.chunks_exact(3)) {
        *word = u32::from_be_bytes([0, three[0], three[1], three[2]]);
    }
    let given = Frame {
        header: head.header()?,
        carried: CarriedBits::ZEROS,
        n: n as u8,
        words,
    };
    keep_frame(&given, frame, length)
}

/// What `recall` sets.
pub struct Recalled<'a> {
    /// Type.
    pub kind: &'a mut u8,
    /// Station.
    pub station: &'a mut u16,
    /// Z count.
    pub z: &'a mut u16,
    /// Sequence.
    pub sequence: &'a mut u8,
    /// Health.
    pub health: &'a mut u8,
    /// Number of data words.
    pub n: &'a mut u8,
    /// Length of the record.
    pub length: &'a mut usize,
}

/// Recalls the record at the start of the bytes. Refuses with 14, 15, 16, 15, 16.
pub fn recall(frame: &[u8], into: Recalled) -> u8 {
    numbered(recalled(frame, into))
}

fn recalled(frame: &[u8], into: Recalled) -> Answer<()> {
    let (frame, length) = journal::recall(frame)?;
    let header = frame.header;
    let health = header.state.code().ok_or(Refusal::OutsideWidths)?;
    *into.kind = header.type_number as u8;
    *into.station = header.station;
    *into.z = header.z_count;
    *into.sequence = header.sequence;
    *into.health = health as u8;
    *into.n = frame.n;
    *into.length = length;
    Ok(())
}
