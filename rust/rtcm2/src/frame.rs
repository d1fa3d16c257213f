//! Frames and their headers. A frame is held as its journal record, as the library passes it.

use crate::ffi;
use crate::list::Bytes;
use crate::Refusal;
use core::fmt::{self, Display, Formatter};

/// The longest journal record, of 31 data words.
pub const RECORD_MOST: usize = 102;
/// The longest journal record that keeps the words.
pub const WORDS_MOST: usize = 135;

/// The system whose satellites a record speaks of.
#[derive(Clone, Copy, Debug, Default, PartialEq, Eq, Hash, PartialOrd, Ord)]
pub enum System {
    /// GPS.
    #[default]
    Gps,
    /// GLONASS.
    Glonass,
}

impl Display for System {
    fn fmt(&self, to: &mut Formatter) -> fmt::Result {
        to.write_str(match self {
            System::Gps => "GPS",
            System::Glonass => "GLONASS",
        })
    }
}

/// What a station says of itself, by the health code of its frames.
#[derive(Clone, Copy, Debug, PartialEq, Eq, Hash)]
pub enum State {
    /// Codes 0 to 5: the factor of its UDRE limits, in hundredths.
    Factor(u8),
    /// Code 6.
    NotMonitored,
    /// Code 7.
    NotWorking,
}

/// What a frame's header says but for N, which its data words give.
#[derive(Clone, Copy, Debug, Default, PartialEq, Eq, Hash)]
pub struct Header {
    /// The type, 1 to 64.
    pub kind: u8,
    /// The station, 0 to 1023.
    pub station: u16,
    /// The modified Z count, 0.6 s each: 0 to 5999, and up to 8191 as it may come.
    pub z: u16,
    /// The sequence number, 0 to 7.
    pub sequence: u8,
    /// The station's health code, 0 to 7.
    pub health: u8,
}

impl Header {
    /// The system of the type: GLONASS has 31 to 36; every other type is taken as GPS.
    pub fn system(&self) -> System {
        match self.kind {
            31..=36 => System::Glonass,
            _ => System::Gps,
        }
    }

    /// The station's state; none for a health code over 7, which no frame has.
    pub fn state(&self) -> Option<State> {
        const FACTORS: [u8; 6] = [100, 75, 50, 30, 20, 10];
        match self.health {
            6 => Some(State::NotMonitored),
            7 => Some(State::NotWorking),
            code => FACTORS.get(usize::from(code)).copied().map(State::Factor),
        }
    }

    /// The time of the Z count in tenths of a second from the full hour.
    pub fn z_tenths(&self) -> u32 {
        6 * u32::from(self.z)
    }
}

/// The two line bits before a frame's first word, D29* and D30*. Either value of each occurs on a
/// sound line: they do not tell whether a line is turned over.
#[derive(Clone, Copy, Debug, Default, PartialEq, Eq, Hash)]
pub struct Pair {
    /// D29*.
    pub d29: bool,
    /// D30*.
    pub d30: bool,
}

impl Pair {
    pub(crate) fn of(d29: u8, d30: u8) -> Pair {
        Pair { d29: d29 == 1, d30: d30 == 1 }
    }
}

/// Two digits, D29* first.
impl Display for Pair {
    fn fmt(&self, to: &mut Formatter) -> fmt::Result {
        write!(to, "{}{}", u8::from(self.d29), u8::from(self.d30))
    }
}

/// A frame: a header and 0 to 31 data words. It is always one that the library has taken from a
/// line, recalled or made.
#[derive(Clone, Copy, PartialEq, Eq, Hash)]
pub struct Frame {
    record: Bytes<RECORD_MOST>,
    header: Header,
    n: u8,
}

impl Frame {
    /// The frame of any type with this header and these data words, three bytes each.
    ///
    /// Refused with 5 where a number of the header is outside its range, or the bytes are no whole
    /// number of words or over 31 of them.
    pub fn keep(header: Header, data: &[u8]) -> Result<Frame, Refusal> {
        let Header { kind, station, z, sequence, health } = header;
        Frame::made(|frame, length| ffi::rtcm2_keep(kind, station, z, sequence, health, data, frame, length))
    }

    /// The frame of the journal record at the start of the bytes. What follows is not looked at; how
    /// long the record is, [`Frame::as_bytes`] says.
    ///
    /// Refused with 14, 15 or 16.
    pub fn recall(bytes: &[u8]) -> Result<Frame, Refusal> {
        let (mut header, mut n, mut length) = (Header::default(), 0, 0);
        ffi::rtcm2_recall(
            bytes,
            &mut header.kind,
            &mut header.station,
            &mut header.z,
            &mut header.sequence,
            &mut header.health,
            &mut n,
            &mut length,
        )?;
        let record = Bytes::of(&bytes[..length]);
        Ok(Frame { record, header, n })
    }

    /// A frame that a call of the library leaves as its record.
    pub(crate) fn made(make: impl FnOnce(&mut [u8], &mut usize) -> Result<(), Refusal>) -> Result<Frame, Refusal> {
        Frame::recall(&Bytes::<RECORD_MOST>::filled(make)?)
    }

    /// The frame of the record at the start of the bytes that keeps the words, its carried pair, and
    /// how many bytes the record has. What follows is not looked at.
    ///
    /// Refused with 14, 15 or 16, and with 17 where a word was altered.
    pub fn recall_words(bytes: &[u8]) -> Result<(Frame, Pair, usize), Refusal> {
        let (mut d29, mut d30, mut read) = (0, 0, 0);
        let frame =
            Frame::made(|frame, length| ffi::rtcm2_recall_words(bytes, frame, &mut d29, &mut d30, &mut read, length))?;
        Ok((frame, Pair::of(d29, d30), read))
    }

    /// The frame's journal record, 3N + 9 bytes.
    pub fn as_bytes(&self) -> &[u8] {
        &self.record
    }

    /// The frame's journal record that keeps the words, starting from a carried pair, 4N + 11 bytes.
    pub fn words(&self, pair: Pair) -> Bytes<WORDS_MOST> {
        let (d29, d30) = (u8::from(pair.d29), u8::from(pair.d30));
        Bytes::filled(|words, length| ffi::rtcm2_keep_words(self.as_bytes(), d29, d30, words, length))
            .expect("a frame's words can be kept")
    }

    /// What the header says.
    pub fn header(&self) -> Header {
        self.header
    }

    /// How many data words the frame has, 0 to 31.
    pub fn n(&self) -> u8 {
        self.n
    }

    /// The data words, three bytes each with the highest bits first.
    pub fn data(&self) -> &[u8] {
        &self.record[9..]
    }

    /// Whether type and N are those of a null frame, whatever its Z count: type 6 or 34 with N 0 or
    /// 1, type 42 with N 1.
    pub fn is_null(&self) -> bool {
        matches!((self.header.kind, self.n), (6 | 34, 0 | 1) | (42, 1))
    }
}

impl fmt::Debug for Frame {
    fn fmt(&self, to: &mut Formatter) -> fmt::Result {
        to.debug_struct("Frame").field("header", &self.header).field("data", &self.data()).finish()
    }
}

/// The rows of entries, one after the other. Of more entries than there is room for, those that fit
/// and no others are put: they are more than a frame takes, which the library refuses with 12.
pub(crate) fn rows<T, const SIZE: usize, const ROOM: usize>(
    entries: &[T],
    row: impl Fn(&T) -> [u8; SIZE],
) -> Bytes<ROOM> {
    let mut bytes = Bytes::new();
    for entry in entries.iter().take(ROOM / SIZE) {
        for byte in row(entry) {
            bytes.push(byte);
        }
    }
    bytes
}
