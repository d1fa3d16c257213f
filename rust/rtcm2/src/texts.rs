//! Texts: type 16, and type 36 with Russian letters.

use crate::ffi;
use crate::frame::{Frame, Header};
use crate::list::Bytes;
use crate::Refusal;
use core::fmt::{self, Display, Formatter, Write};

/// The most characters of a text.
const MOST: usize = 90;

/// The characters of a text as sent: 1 to 127, in type 36 also 128 to 191.
#[derive(Clone, Copy, Debug, Default, PartialEq, Eq, Hash)]
pub struct Text {
    /// The codes.
    pub codes: Bytes<MOST>,
}

impl Text {
    /// The characters in Unicode.
    pub fn letters(&self) -> impl Iterator<Item = char> + '_ {
        self.codes.iter().map(|&code| letter_of(code).unwrap_or(char::REPLACEMENT_CHARACTER))
    }
}

impl Display for Text {
    fn fmt(&self, to: &mut Formatter) -> fmt::Result {
        self.letters().try_for_each(|letter| to.write_char(letter))
    }
}

/// A character's letter. Refused with 11 for 0 and over 191.
fn letter_of(code: u8) -> Result<char, Refusal> {
    let mut letter = 0;
    ffi::rtcm2_letter_of(code, &mut letter)?;
    char::from_u32(letter).ok_or(Refusal::Character)
}

impl Frame {
    /// The text of the frame. Refused with 6, 7, 8 or 11.
    pub fn text(&self) -> Result<Text, Refusal> {
        let codes = Bytes::filled(|text, length| ffi::rtcm2_read_text(self.as_bytes(), text, length))?;
        Ok(Text { codes })
    }

    /// A frame of 1 to 90 characters. Refused with 5, 6, 7, 12 or 11.
    pub fn of_text(header: Header, codes: &[u8]) -> Result<Frame, Refusal> {
        let Header { kind, station, z, sequence, health } = header;
        Frame::made(|frame, length| ffi::rtcm2_make_text(kind, station, z, sequence, health, codes, frame, length))
    }
}
