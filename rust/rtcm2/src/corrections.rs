//! Corrections: types 1 and 9 of GPS, 31 and 34 of GLONASS.

use crate::ffi;
use crate::frame::{rows, Frame, Header, System};
use crate::list::List;
use crate::Refusal;

/// The most corrections of a frame.
pub const MOST: usize = 18;
const ROW: usize = 7;
pub(crate) const ROOM: usize = (MOST + 1) * ROW;

/// The corrections of a frame.
pub type Corrections = List<Correction, MOST>;

/// Which data of the satellite a correction belongs to.
#[derive(Clone, Copy, Debug, PartialEq, Eq, Hash)]
pub enum Issue {
    /// GPS: the issue of data.
    Iod(u8),
    /// GLONASS: the change bit, and tb, 0 to 119, in counts of 30 s from the full hour.
    Age {
        /// The change bit.
        change: bool,
        /// The time tb.
        tb: u8,
    },
}

impl Default for Issue {
    fn default() -> Issue {
        Issue::Iod(0)
    }
}

/// The correction of one satellite, numbers as sent.
#[derive(Clone, Copy, Debug, Default, PartialEq, Eq, Hash)]
pub struct Correction {
    /// The scale, 0 or 1.
    pub scale: u8,
    /// The UDRE code, 0 to 3.
    pub udre: u8,
    /// The satellite, 1 to 32.
    pub satellite: u8,
    /// PRC as sent; -32768 says to stop using the satellite.
    pub prc: i16,
    /// RRC as sent; -128 says to stop using the satellite.
    pub rrc: i8,
    /// The data it belongs to.
    pub issue: Issue,
}

impl Correction {
    /// Whether the satellite is not to be used: PRC or RRC says stop.
    pub fn stops(&self) -> bool {
        let mut stop = 0;
        ffi::rtcm2_stops(self.prc, self.rrc, &mut stop).expect("never refused");
        stop == 1
    }

    /// PRC in mm; none where the correction stops the satellite. Refused with 10 for a scale over 1.
    pub fn prc_mm(&self) -> Result<Option<i32>, Refusal> {
        let (mut stop, mut mm) = (0, 0);
        ffi::rtcm2_prc_mm(self.scale, self.prc, &mut stop, &mut mm)?;
        Ok((!self.stops()).then_some(mm))
    }

    /// RRC in mm/s; none where the correction stops the satellite. Refused with 10 for a scale over 1.
    pub fn rrc_mm_s(&self) -> Result<Option<i32>, Refusal> {
        let (mut stop, mut rate) = (0, 0);
        ffi::rtcm2_rrc_mm_s(self.scale, self.rrc, &mut stop, &mut rate)?;
        Ok((!self.stops()).then_some(rate))
    }

    /// The upper limit of the UDRE code in mm under a station's health code; none for code 3.
    /// Refused with 5 for a health over 7, with 10 for a code over 3.
    pub fn udre_limit_mm(&self, health: u8) -> Result<Option<u32>, Refusal> {
        let (mut limited, mut mm) = (0, 0);
        ffi::rtcm2_udre_limit_mm(health, self.udre, &mut limited, &mut mm)?;
        Ok((limited == 1).then_some(mm))
    }

    // An issue that is not of the system has no byte of its own in a row: its scale is put out of
    // range instead, so that the library refuses it in its place, with 10.
    pub(crate) fn row(&self, system: System) -> [u8; ROW] {
        let [low, high] = self.prc.to_le_bytes();
        let (scale, last) = match (self.issue, system) {
            (Issue::Iod(iod), System::Gps) => (self.scale, iod),
            (Issue::Age { change, tb: tb @ 0..=127 }, System::Glonass) => (self.scale, u8::from(change) << 7 | tb),
            _ => (u8::MAX, 0),
        };
        [scale, self.udre, self.satellite, low, high, self.rrc as u8, last]
    }

    fn of_row(row: [u8; ROW], system: System) -> Correction {
        let [scale, udre, satellite, low, high, rrc, last] = row;
        let issue = match system {
            System::Gps => Issue::Iod(last),
            System::Glonass => Issue::Age { change: last >= 128, tb: last % 128 },
        };
        Correction { scale, udre, satellite, prc: i16::from_le_bytes([low, high]), rrc: rrc as i8, issue }
    }
}

impl Frame {
    /// How many corrections the frame holds. Refused with 6, 7 or 8.
    pub fn count_corrections(&self) -> Result<usize, Refusal> {
        let mut count = 0;
        ffi::rtcm2_count_corrections(self.as_bytes(), &mut count)?;
        Ok(count)
    }

    /// The correction of an index, from 0. Refused with 6, 7, 8, 9, or 10 for a tb over 119.
    pub fn correction(&self, index: usize) -> Result<Correction, Refusal> {
        let mut row = [0; ROW];
        ffi::rtcm2_correction_at(self.as_bytes(), index, &mut row)?;
        Ok(Correction::of_row(row, self.header().system()))
    }

    /// Each correction of the frame, or why it can't be read: one bad satellite hides no other.
    pub fn corrections(&self) -> Result<impl Iterator<Item = Result<Correction, Refusal>> + '_, Refusal> {
        Ok((0..self.count_corrections()?).map(|index| self.correction(index)))
    }

    /// A frame of 1 to 18 corrections. Refused with 5, 6, 7, 12, or 10, also for an issue of the
    /// other system.
    pub fn of_corrections(header: Header, corrections: &[Correction]) -> Result<Frame, Refusal> {
        let Header { kind, station, z, sequence, health } = header;
        let bytes = rows::<_, ROW, ROOM>(corrections, |correction| correction.row(header.system()));
        Frame::made(|frame, length| {
            ffi::rtcm2_make_corrections(kind, station, z, sequence, health, &bytes, frame, length)
        })
    }
}
