//! The calls of `include/rtcm2.h`, one function each under its name without
//! `rtcm2_`: over lent bytes, answering 0 or the refusal's number. A refusal
//! changes nothing.

pub mod frames;
pub mod generals;
mod hunt;
pub mod journals;
pub mod line;
pub mod lists;
pub mod numbers;
pub mod observations;
pub mod profile;
pub mod records;
pub mod season;
pub mod state;
pub mod turns;
pub mod words;

use crate::frame::{Frame, Header, State};
use crate::journal;
use crate::refusal::{refuse_if, Answer, Refusal};

/// 0, or the refusal's number.
fn numbered(answer: Answer<()>) -> u8 {
    answer.map_or_else(Refusal::number, |()| 0)
}

/// The frame of the journal record at the start of the bytes. Refuses with 14,
/// 15, 16, 15, 16.
fn frame_in(record: &[u8]) -> Answer<Frame> {
    journal::recall(record).map(|(frame, _)| frame)
}

/// Keeps a made frame in the lent bytes and sets the record's length. Refuses
/// with 5, 13.
fn keep_frame(made: &Frame, frame: &mut [u8], length: &mut usize) -> Answer<()> {
    *length = journal::keep(made, frame)?;
    Ok(())
}

/// The header of a frame to be made, as five numbers.
#[derive(Clone, Copy, Debug, PartialEq, Eq)]
pub struct Head {
    /// Type, 1 to 64.
    pub kind: u8,
    /// Station, 0 to 1023.
    pub station: u16,
    /// Z count, 0 to 8191.
    pub z: u16,
    /// Sequence, 0 to 7.
    pub sequence: u8,
    /// Health, 0 to 7.
    pub health: u8,
}

impl Head {
    /// The header value. Refuses a health over 7 with 5; the other numbers are
    /// looked at by the call that uses the header.
    fn header(self) -> Answer<Header> {
        refuse_if(self.health > 7, Refusal::OutsideWidths)?;
        Ok(Header {
            type_number: u16::from(self.kind),
            station: self.station,
            z_count: self.z,
            sequence: self.sequence,
            state: State::of_code(u32::from(self.health)),
        })
    }
}
