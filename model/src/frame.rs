//! Station state, header, carried bits and frame values; the check behind refusal
//! 5; the two header words both ways.

use crate::refusal::{refuse_if, Answer, Refusal};
use crate::word::Pair;

/// Most data words a frame can have.
pub const MOST_WORDS: usize = 31;

/// The first eight data bits of word 1.
pub const PREAMBLE: u32 = 0b0110_0110;

/// The first Z count that is outside the hour.
pub const Z_COUNTS: u16 = 6000;

/// UDRE factors in hundredths for health codes 0 to 5.
pub const FACTORS: [u16; 6] = [100, 75, 50, 30, 20, 10];

/// The station's state.
#[derive(Clone, Copy, Debug, PartialEq, Eq)]
pub enum State {
    /// A UDRE factor in whole hundredths.
    Factor(u16),
    /// Not monitored, health code 6.
    NotMonitored,
    /// Not working, health code 7.
    NotWorking,
}

impl State {
    /// The health code; none for a factor that is not one of the six.
    pub fn code(self) -> Option<u32> {
        match self {
            State::Factor(factor) => {
                let place = FACTORS.iter().position(|known| *known == factor);
                place.map(|code| code as u32)
            }
            State::NotMonitored => Some(6),
            State::NotWorking => Some(7),
        }
    }

    /// The state of a three-bit health code.
    pub fn of_code(code: u32) -> State {
        match code % 8 {
            6 => State::NotMonitored,
            7 => State::NotWorking,
            factor => State::Factor(FACTORS[factor as usize]),
        }
    }

    /// The UDRE factor in hundredths; 1 for the kinds without one.
    pub fn factor(self) -> u16 {
        match self {
            State::Factor(factor) => factor,
            State::NotMonitored | State::NotWorking => 100,
        }
    }
}

/// The header of a frame, without N.
#[derive(Clone, Copy, Debug, PartialEq, Eq)]
pub struct Header {
    /// Type number, 1 to 64.
    pub type_number: u16,
    /// Station, ten bits.
    pub station: u16,
    /// Z count, thirteen bits, 0.6 s each.
    pub z_count: u16,
    /// Sequence, three bits.
    pub sequence: u8,
    /// State of the station.
    pub state: State,
}

/// The two line bits just before a word, each 0 or 1. Either value occurs on a
/// sound line: they do not tell whether it is turned.
#[derive(Clone, Copy, Debug, PartialEq, Eq)]
pub struct CarriedBits {
    /// D29*, the earlier one.
    pub d29: u8,
    /// D30*, the later one.
    pub d30: u8,
}

impl From<Pair> for CarriedBits {
    fn from(pair: Pair) -> CarriedBits {
        CarriedBits {
            d29: pair.d29.into(),
            d30: pair.d30.into(),
        }
    }
}

impl CarriedBits {
    /// The bits of a frame that did not come from the line, and of an opened stream.
    pub const ZEROS: CarriedBits = CarriedBits { d29: 0, d30: 0 };

    /// Refuses bits that are neither 0 nor 1 with 5.
    pub fn check(self) -> Answer<()> {
        refuse_if(self.d29 > 1 || self.d30 > 1, Refusal::OutsideWidths)
    }
}

/// A frame: header, the two bits before word 1, N, and data words; words past N
/// are zero.
#[derive(Clone, Copy, Debug, PartialEq, Eq)]
pub struct Frame {
    /// The header.
    pub header: Header,
    /// The two bits before word 1; 00 if it did not come from the line.
    pub carried: CarriedBits,
    /// Number of data words.
    pub n: u8,
    /// Data of the words, 24 bits each.
    pub words: [u32; MOST_WORDS],
}

/// Refuses a header outside its widths.
pub fn check_header(header: &Header) -> Answer<()> {
    let inside = (1..=64).contains(&header.type_number)
        && header.station < 1 << 10
        && header.z_count < 1 << 13
        && header.sequence < 1 << 3
        && header.state.code().is_some();
    refuse_if(!inside, Refusal::OutsideWidths)
}

/// Refuses a frame outside its widths, with a carried bit neither 0 nor 1, N over
/// 31 or a word past N not zero.
pub fn check_frame(frame: &Frame) -> Answer<()> {
    check_header(&frame.header)?;
    frame.carried.check()?;
    refuse_if(usize::from(frame.n) > MOST_WORDS, Refusal::OutsideWidths)?;
    let (used, past) = frame.words.split_at(usize::from(frame.n));
    let wide = used.iter().any(|word| *word >= 1 << 24);
    let left = past.iter().any(|word| *word != 0);
    refuse_if(wide || left, Refusal::OutsideWidths)
}

/// Data of words 1 and 2; the header has passed its check.
pub fn header_words(header: &Header, n: u8) -> [u32; 2] {
    let type_code = u32::from(header.type_number) % 64;
    let health = header.state.code().unwrap_or(0);
    let first = PREAMBLE << 16 | type_code << 10 | u32::from(header.station);
    let second = u32::from(header.z_count) << 11
        | u32::from(header.sequence) << 8
        | u32::from(n) << 3
        | health;
    [first, second]
}

/// Whether the data of word 1 starts with the preamble.
pub fn preamble_is_right(first: u32) -> bool {
    first >> 16 == PREAMBLE
}

/// N in the data of word 2.
pub fn n_of(second: u32) -> u8 {
    ((second >> 3) % 32) as u8
}

/// The header in the data of words 1 and 2.
pub fn header_of(first: u32, second: u32) -> Header {
    let type_code = (first >> 10) % 64;
    Header {
        type_number: if type_code == 0 { 64 } else { type_code as u16 },
        station: (first % 1024) as u16,
        z_count: (second >> 11) as u16,
        sequence: ((second >> 8) % 8) as u8,
        state: State::of_code(second % 8),
    }
}

impl Frame {
    /// The frame value of the data of its N + 2 words; its carried bits are 00.
    pub fn of_words(all: &[u32]) -> Frame {
        let mut words = [0; MOST_WORDS];
        words[..all.len() - 2].copy_from_slice(&all[2..]);
        Frame {
            header: header_of(all[0], all[1]),
            carried: CarriedBits::ZEROS,
            n: n_of(all[1]),
            words,
        }
    }

    /// The same frame after these two bits.
    pub fn after(self, carried: CarriedBits) -> Frame {
        Frame { carried, ..self }
    }

    /// The same frame with 00: what two frames share that differ in these bits alone.
    pub fn bare(self) -> Frame {
        self.after(CarriedBits::ZEROS)
    }

    /// Data of all N + 2 words; the frame has passed its check.
    pub fn all_words(&self) -> Vec<u32> {
        let mut all = header_words(&self.header, self.n).to_vec();
        all.extend(&self.words[..usize::from(self.n)]);
        all
    }
}
