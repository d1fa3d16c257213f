//! Reading and writing the line.

use super::state::{State, SIZE};
use super::{frame_in, keep_frame, numbered};
use crate::frame::CarriedBits;
use crate::refusal::{refuse_if, Answer, Refusal};
use crate::writer;

/// How many bytes a state takes.
pub fn state_size() -> usize {
    SIZE
}

/// Starts a reader. Refuses with 13.
pub fn start(state: &mut [u8]) -> u8 {
    numbered(started(state))
}

fn started(state: &mut [u8]) -> Answer<()> {
    refuse_if(state.len() < SIZE, Refusal::BufferTooShort)?;
    State::fresh().put(state);
    Ok(())
}

/// Feeds one byte. Refuses with 5, 3, 2, 1.
pub fn feed(state: &mut [u8], byte: u8) -> u8 {
    numbered(changed(state, |reader| reader.feed(byte)))
}

/// Feeds bytes until a frame waits or none is left. Refuses with 5, 3, 2.
pub fn feed_all(state: &mut [u8], bytes: &[u8], used: &mut usize, passed: &mut usize) -> u8 {
    numbered(changed(state, |reader| {
        let fed = reader.feed_all(bytes)?;
        (*used, *passed) = (fed.used, fed.passed);
        Ok(())
    }))
}

/// Ends the input. Refuses with 5, 3, 2.
pub fn end(state: &mut [u8]) -> u8 {
    numbered(changed(state, State::finish))
}

/// What `take` sets beside the frame's record.
pub struct Taking<'a> {
    /// Length of the record.
    pub length: &'a mut usize,
    /// First bit position.
    pub at: &'a mut u32,
    /// D29* of the frame.
    pub d29: &'a mut u8,
    /// D30* of the frame.
    pub d30: &'a mut u8,
}

/// Takes the frame that waits. Refuses with 5, 4, 13.
pub fn take(state: &mut [u8], frame: &mut [u8], into: Taking) -> u8 {
    numbered(changed(state, |reader| {
        let taken = reader.take()?;
        keep_frame(&taken.frame, frame, into.length)?;
        *into.at = taken.position;
        *into.d29 = taken.frame.carried.d29;
        *into.d30 = taken.frame.carried.d30;
        Ok(())
    }))
}

/// How many positions a word ruled out, by its remainder. Refuses with 5.
pub fn counts(state: &[u8], odd: &mut u32, even: &mut u32) -> u8 {
    let counts = State::read(state).map(|reader| reader.counts);
    numbered(counts.map(|counts| (*odd, *even) = (counts.odd, counts.even)))
}

/// Puts the changed state back, unless the call is refused.
pub(super) fn changed(state: &mut [u8], call: impl FnOnce(&mut State) -> Answer<()>) -> Answer<()> {
    let mut reader = State::read(state)?;
    call(&mut reader)?;
    reader.put(state);
    Ok(())
}

/// Opens a stream. Refuses with 13.
pub fn open(line: &mut [u8]) -> u8 {
    numbered(writer::open(line).map(|_| ()))
}

/// Writes a frame after the carried bits. Refuses with 14, 15, 16, 15, 16, 5, 7,
/// 13.
pub fn write(frame: &[u8], d29: &mut u8, d30: &mut u8, line: &mut [u8], length: &mut usize) -> u8 {
    numbered(written(frame, d29, d30, line, length))
}

fn written(
    frame: &[u8],
    d29: &mut u8,
    d30: &mut u8,
    line: &mut [u8],
    length: &mut usize,
) -> Answer<()> {
    let carried = CarriedBits {
        d29: *d29,
        d30: *d30,
    };
    let written = writer::write(&frame_in(frame)?, carried, line)?;
    (*d29, *d30) = (written.carried.d29, written.carried.d30);
    *length = written.length;
    Ok(())
}
