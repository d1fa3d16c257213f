//! The types whose frames hold one thing: position (3 and 32), nothing (6, and 34
//! with N 0 or 1), text (16 and 36).

use super::{frame_in, keep_frame, numbered, Head};
use crate::record::position::{self, Position};
use crate::record::{null, text};
use crate::refusal::Answer;

/// Reads the position in centimetres. Refuses with 14, 15, 16, 15, 16, 6, 7, 8,
/// 10.
pub fn read_position(frame: &[u8], x_cm: &mut i32, y_cm: &mut i32, z_cm: &mut i32) -> u8 {
    let read = frame_in(frame).and_then(|frame| position::read(&frame));
    numbered(read.map(|place| (*x_cm, *y_cm, *z_cm) = (place.x, place.y, place.z)))
}

/// Makes a frame of a position. Refuses with 5, 6, 7, 10, 13.
pub fn make_position(head: Head, place: Position, frame: &mut [u8], length: &mut usize) -> u8 {
    let made = head
        .header()
        .and_then(|header| position::make(&header, &place));
    numbered(made.and_then(|made| keep_frame(&made, frame, length)))
}

/// Reads a null frame's N. Refuses with 14, 15, 16, 15, 16, 6, 7, 8.
pub fn read_null(frame: &[u8], n: &mut u8) -> u8 {
    let read = frame_in(frame).and_then(|frame| null::read(&frame));
    numbered(read.map(|found| *n = found))
}

/// Makes a null frame with the wanted N. Refuses with 5, 6, 7, 12, 13.
pub fn make_null(head: Head, n: u8, frame: &mut [u8], length: &mut usize) -> u8 {
    let made = head.header().and_then(|header| null::make(&header, n));
    numbered(made.and_then(|made| keep_frame(&made, frame, length)))
}

/// Reads a text. Refuses with 14, 15, 16, 15, 16, 6, 7, 8, 11, 13.
pub fn read_text(frame: &[u8], characters: &mut [u8], length: &mut usize) -> u8 {
    numbered(text_read(frame, characters, length))
}

fn text_read(frame: &[u8], characters: &mut [u8], length: &mut usize) -> Answer<()> {
    *length = text::read(&frame_in(frame)?, characters)?;
    Ok(())
}

/// Makes a frame of a text. Refuses with 5, 6, 7, 12, 11, 13.
pub fn make_text(head: Head, characters: &[u8], frame: &mut [u8], length: &mut usize) -> u8 {
    let made = head
        .header()
        .and_then(|header| text::make(&header, characters));
    numbered(made.and_then(|made| keep_frame(&made, frame, length)))
}
