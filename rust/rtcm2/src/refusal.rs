//! Refusals: the numbers of the rules' table, each with its text.

use core::error::Error;
use core::fmt::{self, Display, Formatter};

/// The table, once: name, number, text.
macro_rules! table {
    ($($name:ident = $number:literal, $text:literal;)*) => {
        /// Why a call was refused. A refusal changes nothing: the reader, the report and every byte
        /// lent to the call are as they were.
        #[derive(Clone, Copy, Debug, PartialEq, Eq, Hash, PartialOrd, Ord)]
        #[non_exhaustive]
        #[repr(u8)]
        pub enum Refusal {
            $(#[doc = concat!(stringify!($number), ": ", $text, ".")] $name = $number,)*
        }

        impl Refusal {
            /// Every refusal, by number.
            pub const ALL: &'static [Refusal] = &[$(Refusal::$name),*];

            /// The refusal of a number, if the table has it.
            pub const fn of(number: u8) -> Option<Refusal> {
                match number {
                    $($number => Some(Refusal::$name),)*
                    _ => None,
                }
            }

            /// What the number says.
            pub const fn text(self) -> &'static str {
                match self {
                    $(Refusal::$name => $text,)*
                }
            }
        }
    };
}

table! {
    NoDataByte = 1, "a byte without top bits 01";
    FrameWaits = 2, "fed or ended while a frame waits";
    Ended = 3, "fed or ended after the end";
    NoFrame = 4, "no frame waits to be taken";
    Outside = 5, "a value is outside its width, or the bytes are no state or report";
    OtherType = 6, "the frame is of another type";
    ZCount = 7, "the Z count is past the hour, 6000 to 8191";
    WrongN = 8, "N doesn't fit the type";
    NoEntry = 9, "there is no entry of this number";
    Field = 10, "a field of the record is outside its range";
    Character = 11, "a forbidden character";
    Entries = 12, "no entry, or too many";
    TooShort = 13, "the room lent is too short";
    NoMark = 14, "no journal mark";
    CutShort = 15, "the record is cut short";
    BadRecord = 16, "N of the record is over 31 or not that of word 2, or the preamble is wrong";
    Broken = 17, "a word was altered";
    NoRoom = 18, "a new key, and all rows are in use";
    Count = 19, "a count would pass 4294967295";
    OtherProfile = 20, "the type is not of the profile";
    Satellites = 21, "more than three satellites in a frame of the profile";
    Twice = 22, "one satellite twice";
    OtherSystem = 23, "the system is not GPS, GLONASS, QZSS or BeiDou";
}

impl Refusal {
    /// Its number in the table.
    pub const fn number(self) -> u8 {
        self as u8
    }
}

impl Display for Refusal {
    fn fmt(&self, to: &mut Formatter) -> fmt::Result {
        write!(to, "refusal {}: {}", self.number(), self.text())
    }
}

impl Error for Refusal {}

/// Nothing, or the refusal that a call of the library answered.
pub(crate) fn checked(answer: u8) -> Result<(), Refusal> {
    match (answer, Refusal::of(answer)) {
        (0, _) => Ok(()),
        (_, Some(refusal)) => Err(refusal),
        (number, None) => unreachable!("the library answered {number}, which is not in the table"),
    }
}
