//! Type 42 with N 1: the null frame of a system, its number and twenty bits of fill.

use super::fields::{alternates, data_bits, Fields, Layer};
use super::general::{FILL, SYSTEMS};
use super::{begin_making, begin_reading, Layout};
use crate::frame::{Frame, Header};
use crate::refusal::{refuse_if, Answer, Refusal};

/// What a null frame of type 42 says.
#[derive(Clone, Copy, Debug, PartialEq, Eq)]
pub struct GeneralNull {
    /// N, which is 1.
    pub n: u8,
    /// System.
    pub system: u8,
}

/// Reads a null frame, whatever the fill. Refuses with 5, 6, 7, 8, 23.
pub fn read(frame: &Frame) -> Answer<GeneralNull> {
    begin_reading(frame, Layout::GeneralNull)?;
    refuse_if(frame.n != 1, Refusal::NDoesNotFit)?;
    let system = Fields::from(frame, 0).unsigned(4) as u8;
    refuse_if(!SYSTEMS.contains(&system), Refusal::OtherSystem)?;
    Ok(GeneralNull { n: frame.n, system })
}

/// The null frame of a header and a system with the wanted N. Refuses with 5, 6, 7, 23,
/// 12.
pub fn make(header: &Header, wanted: &GeneralNull) -> Answer<Frame> {
    begin_making(header, Layout::GeneralNull)?;
    refuse_if(!SYSTEMS.contains(&wanted.system), Refusal::OtherSystem)?;
    refuse_if(wanted.n != 1, Refusal::EntryCount)?;
    let mut layer = Layer::default();
    layer.put(i64::from(wanted.system), 4);
    layer.fill(FILL);
    Ok(layer.frame(header))
}

/// Whether the last twenty bits are standard fill. Refuses as `read`.
pub fn fill_is_standard(frame: &Frame) -> Answer<bool> {
    read(frame)?;
    Ok(alternates(&data_bits(frame)[4..]))
}
