//! Frames to line bytes.

use crate::ffi;
use crate::frame::{Frame, Pair};
use crate::list::Bytes;
use crate::Refusal;

/// The line bytes of a frame, at most 165.
pub type LineBytes = Bytes<165>;

/// Writes frames one behind the other: it carries the last two bits of each to the next.
#[derive(Clone, Copy, Debug, Default, PartialEq, Eq)]
pub struct Writer {
    pair: Pair,
}

impl Writer {
    /// A writer, and the byte that opens its line.
    pub fn open() -> (Writer, u8) {
        let mut line = [0; 1];
        ffi::rtcm2_open(&mut line).expect("there is room");
        (Writer::default(), line[0])
    }

    /// A writer that goes on after these two bits.
    pub fn after(pair: Pair) -> Writer {
        Writer { pair }
    }

    /// The two bits that the next frame starts from.
    pub fn pair(&self) -> Pair {
        self.pair
    }

    /// The line bytes of a frame, 5(N + 2) of them. Refused with 7 for a Z count past the hour.
    pub fn write(&mut self, frame: &Frame) -> Result<LineBytes, Refusal> {
        let (mut d29, mut d30) = (u8::from(self.pair.d29), u8::from(self.pair.d30));
        let line = Bytes::filled(|line, length| ffi::rtcm2_write(frame.as_bytes(), &mut d29, &mut d30, line, length))?;
        self.pair = Pair::of(d29, d30);
        Ok(line)
    }
}
