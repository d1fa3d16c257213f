//! Types 6 and 34 with N 0 or 1: the null frame, without data or with one word of
//! fill.

use super::fields::{alternates, data_bits, Layer};
use super::{begin_making, begin_reading, Layout};
use crate::frame::{Frame, Header};
use crate::refusal::{refuse_if, Answer, Refusal};

/// The fill: alternating ones and zeros, a one first.
pub const FILL: u32 = 0b1010_1010_1010_1010_1010_1010;

/// Most words of a null frame.
const MOST: u8 = 1;

/// Reads a null frame: its N, whatever the fill. Refuses with 5, 6, 7, 8.
pub fn read(frame: &Frame) -> Answer<u8> {
    begin_reading(frame, Layout::Null)?;
    refuse_if(frame.n > MOST, Refusal::NDoesNotFit)?;
    Ok(frame.n)
}

/// The null frame of a header with the wanted N. Refuses with 5, 6, 7, 12.
pub fn make(header: &Header, wanted: u8) -> Answer<Frame> {
    begin_making(header, Layout::Null)?;
    refuse_if(wanted > MOST, Refusal::EntryCount)?;
    let mut layer = Layer::default();
    for _ in 0..wanted {
        layer.put(i64::from(FILL), 24);
    }
    Ok(layer.frame(header))
}

/// Whether the word, if there is one, is standard fill. Refuses as `read`.
pub fn fill_is_standard(frame: &Frame) -> Answer<bool> {
    read(frame)?;
    Ok(alternates(&data_bits(frame)))
}
