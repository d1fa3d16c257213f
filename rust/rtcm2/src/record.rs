//! What a frame says by its type, whole; and frames of positions and null frames.

use crate::corrections::Corrections;
use crate::ffi;
use crate::frame::{Frame, Header};
use crate::generals::{GeneralNull, Generals};
use crate::healths::Healths;
use crate::list::List;
use crate::observations::{Edition, Observations};
use crate::texts::Text;
use crate::Refusal;

/// A station's position, in centimetres from the centre of the earth.
#[derive(Clone, Copy, Debug, Default, PartialEq, Eq, Hash)]
pub struct Position {
    /// X.
    pub x_cm: i32,
    /// Y.
    pub y_cm: i32,
    /// Z.
    pub z_cm: i32,
}

/// A null frame: it has 0 or 1 data words, which say nothing.
#[derive(Clone, Copy, Debug, Default, PartialEq, Eq, Hash)]
pub struct Null {
    /// N.
    pub n: u8,
}

/// The record of a frame.
#[derive(Clone, Copy, Debug, PartialEq, Eq)]
#[non_exhaustive]
#[allow(clippy::large_enum_variant)]
pub enum Record {
    /// Types 1, 9, 31, and 34 from N 2 on.
    Corrections(Corrections),
    /// Types 3 and 32.
    Position(Position),
    /// Types 5 and 33.
    Healths(Healths),
    /// Type 6, and type 34 with N 0 or 1.
    Null(Null),
    /// Types 16 and 36.
    Text(Text),
    /// Types 18 and 19.
    Observations(Observations),
    /// Type 41, and type 42 with any N but 1.
    Generals(Generals),
    /// Type 42 with N 1.
    GeneralNull(GeneralNull),
    /// Any other type: its data words are not looked into.
    Plain,
}

impl Record {
    /// The record of a frame, observations as GOST means them. Refused with 7, 8, 10, 11 or 23; also where
    /// one entry alone can't be read (the calls on entries read the others).
    pub fn read(frame: &Frame) -> Result<Record, Refusal> {
        Record::read_in(frame, Edition::Gost)
    }

    /// The record of a frame, observations as an edition means them.
    pub fn read_in(frame: &Frame, edition: Edition) -> Result<Record, Refusal> {
        Ok(match frame.header().kind {
            34 if frame.is_null() => Record::Null(frame.null()?),
            1 | 9 | 31 | 34 => Record::Corrections(all(frame.corrections()?)?),
            3 | 32 => Record::Position(frame.position()?),
            5 | 33 => Record::Healths(all(frame.healths()?)?),
            6 => Record::Null(frame.null()?),
            16 | 36 => Record::Text(frame.text()?),
            18 | 19 => Record::Observations(Observations {
                epoch: frame.epoch()?,
                satellites: all(frame.observations(edition)?)?,
            }),
            42 if frame.is_null() => Record::GeneralNull(frame.general_null()?),
            41 | 42 => Record::Generals(Generals { head: frame.general_head()?, satellites: all(frame.generals()?)? }),
            _ => Record::Plain,
        })
    }

    /// The frame of this header that has the record, observations as an edition means them. A plain
    /// frame has no record to be made of, so for [`Record::Plain`] the answer is 6.
    pub fn make_in(&self, header: Header, edition: Edition) -> Result<Frame, Refusal> {
        match self {
            Record::Corrections(list) => Frame::of_corrections(header, list),
            Record::Position(position) => Frame::of_position(header, *position),
            Record::Healths(list) => Frame::of_healths(header, list),
            Record::Null(null) => Frame::of_null(header, *null),
            Record::Text(text) => Frame::of_text(header, &text.codes),
            Record::Observations(all) => Frame::of_observations(edition, header, all.epoch, &all.satellites),
            Record::Generals(all) => Frame::of_generals(header, all.head, &all.satellites),
            Record::GeneralNull(null) => Frame::of_general_null(header, *null),
            Record::Plain => Err(Refusal::OtherType),
        }
    }

    /// The frame of this header that has the record, observations as GOST means them.
    pub fn make(&self, header: Header) -> Result<Frame, Refusal> {
        self.make_in(header, Edition::Gost)
    }
}

/// All entries, or the first refusal among them.
fn all<T: Copy + Default, const MOST: usize>(
    entries: impl Iterator<Item = Result<T, Refusal>>,
) -> Result<List<T, MOST>, Refusal> {
    let mut list = List::new();
    for entry in entries {
        list.push(entry?);
    }
    Ok(list)
}

impl Frame {
    /// The station's position. Refused with 6, 7, 8 or 10.
    pub fn position(&self) -> Result<Position, Refusal> {
        let mut position = Position::default();
        ffi::rtcm2_read_position(self.as_bytes(), &mut position.x_cm, &mut position.y_cm, &mut position.z_cm)?;
        Ok(position)
    }

    /// A frame of a position. Refused with 5, 6, 7, or 10 for -2147483648.
    pub fn of_position(header: Header, position: Position) -> Result<Frame, Refusal> {
        let Header { kind, station, z, sequence, health } = header;
        let Position { x_cm, y_cm, z_cm } = position;
        Frame::made(|frame, length| {
            ffi::rtcm2_make_position(kind, station, z, sequence, health, x_cm, y_cm, z_cm, frame, length)
        })
    }

    /// The record of a null frame. Refused with 6, 7 or 8.
    pub fn null(&self) -> Result<Null, Refusal> {
        let mut null = Null::default();
        ffi::rtcm2_read_null(self.as_bytes(), &mut null.n)?;
        Ok(null)
    }

    /// A null frame. Refused with 5, 6, 7, or 12 for N over 1.
    pub fn of_null(header: Header, null: Null) -> Result<Frame, Refusal> {
        let Header { kind, station, z, sequence, health } = header;
        Frame::made(|frame, length| ffi::rtcm2_make_null(kind, station, z, sequence, health, null.n, frame, length))
    }
}
