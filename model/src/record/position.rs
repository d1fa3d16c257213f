//! Types 3 and 32: the station's position, three numbers of centimetres.

use super::fields::{Fields, Layer};
use super::{begin_making, begin_reading, Layout};
use crate::frame::{Frame, Header};
use crate::refusal::{refuse_if, Answer, Refusal};

/// X, Y and Z in centimetres.
#[derive(Clone, Copy, Debug, Default, PartialEq, Eq)]
pub struct Position {
    /// X.
    pub x: i32,
    /// Y.
    pub y: i32,
    /// Z.
    pub z: i32,
}

/// Refuses a position with a number outside the range.
fn check_range(position: &Position) -> Answer<()> {
    let numbers = [position.x, position.y, position.z];
    refuse_if(numbers.contains(&i32::MIN), Refusal::OutsideRange)
}

/// Reads the position. Refuses with 5, 6, 7, 8, 10.
pub fn read(frame: &Frame) -> Answer<Position> {
    begin_reading(frame, Layout::Position)?;
    refuse_if(frame.n != 4, Refusal::NDoesNotFit)?;
    let mut fields = Fields::from(frame, 0);
    let position = Position {
        x: fields.signed(32) as i32,
        y: fields.signed(32) as i32,
        z: fields.signed(32) as i32,
    };
    check_range(&position)?;
    Ok(position)
}

/// The frame of a position. Refuses with 5, 6, 7, 10.
pub fn make(header: &Header, position: &Position) -> Answer<Frame> {
    begin_making(header, Layout::Position)?;
    check_range(position)?;
    let mut layer = Layer::default();
    layer.put(i64::from(position.x), 32);
    layer.put(i64::from(position.y), 32);
    layer.put(i64::from(position.z), 32);
    Ok(layer.frame(header))
}
