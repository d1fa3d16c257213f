//! General corrections: types 41 and 42 of GPS, GLONASS, QZSS and BeiDou.

use crate::ffi;
use crate::frame::{rows, Frame, Header};
use crate::list::List;
use crate::Refusal;
use core::fmt::{self, Display, Formatter};

/// The most satellites of a frame without ionosphere; with it there are at most 16.
pub const MOST: usize = 22;
const ROW: usize = 7;
const ROOM: usize = (MOST + 1) * ROW;

/// The system that a frame names.
#[derive(Clone, Copy, Debug, Default, PartialEq, Eq, Hash)]
pub enum GeneralSystem {
    /// 1: GPS.
    #[default]
    Gps,
    /// 2: GLONASS.
    Glonass,
    /// 5: QZSS.
    Qzss,
    /// 6: BeiDou.
    BeiDou,
}

impl GeneralSystem {
    /// Its number as sent.
    pub fn number(self) -> u8 {
        match self {
            GeneralSystem::Gps => 1,
            GeneralSystem::Glonass => 2,
            GeneralSystem::Qzss => 5,
            GeneralSystem::BeiDou => 6,
        }
    }

    /// The system of a number. Refused with 23 for any other.
    pub fn of(number: u8) -> Result<GeneralSystem, Refusal> {
        match number {
            1 => Ok(GeneralSystem::Gps),
            2 => Ok(GeneralSystem::Glonass),
            5 => Ok(GeneralSystem::Qzss),
            6 => Ok(GeneralSystem::BeiDou),
            _ => Err(Refusal::OtherSystem),
        }
    }
}

impl Display for GeneralSystem {
    fn fmt(&self, to: &mut Formatter) -> fmt::Result {
        to.write_str(match self {
            GeneralSystem::Gps => "GPS",
            GeneralSystem::Glonass => "GLONASS",
            GeneralSystem::Qzss => "QZSS",
            GeneralSystem::BeiDou => "BeiDou",
        })
    }
}

/// The head of a frame.
#[derive(Clone, Copy, Debug, Default, PartialEq, Eq, Hash)]
pub struct GeneralHead {
    /// The system.
    pub system: GeneralSystem,
    /// The signal, 0 to 15.
    pub signal: u8,
    /// The type of ephemeris, 0 to 3.
    pub ephemeris: u8,
    /// The period of use, 0 to 3.
    pub period: u8,
    /// Whether each satellite has its ionosphere's delay, 0 or 1.
    pub ionosphere: u8,
}

impl GeneralHead {
    /// How long the corrections may be used, in seconds. Refused with 10 for a period over 3.
    pub fn seconds(&self) -> Result<u8, Refusal> {
        let mut seconds = 0;
        ffi::rtcm2_use_seconds(self.period, &mut seconds)?;
        Ok(seconds)
    }
}

/// The correction of one satellite, numbers as sent.
#[derive(Clone, Copy, Debug, Default, PartialEq, Eq, Hash)]
pub struct General {
    /// The satellite, 1 to 63.
    pub satellite: u8,
    /// The UDRE code, 0 to 15.
    pub udre: u8,
    /// The issue of data.
    pub iod: u8,
    /// PRC, -8192 to 8191; -8192 says to stop using the satellite.
    pub prc: i16,
    /// The ionosphere's delay, 0 to 4095; 4095 says not to use it. 0 where the head has no ionosphere.
    pub delay: u16,
}

impl General {
    /// PRC in mm; none where it stops the satellite. Refused with 10 outside 14 bits.
    pub fn prc_mm(&self) -> Result<Option<i32>, Refusal> {
        let (mut stop, mut mm) = (0, 0);
        ffi::rtcm2_general_prc_mm(self.prc, &mut stop, &mut mm)?;
        Ok((stop == 0).then_some(mm))
    }

    /// The delay in mm; none where it is not to be used. Refused with 10 over 4095.
    pub fn delay_mm(&self) -> Result<Option<u32>, Refusal> {
        let (mut usable, mut mm) = (0, 0);
        ffi::rtcm2_delay_mm(self.delay, &mut usable, &mut mm)?;
        Ok((usable == 1).then_some(mm))
    }

    /// The upper limit of the UDRE code in hundredths of a mm under a station's health code; none for
    /// code 15. Refused with 5 for a health over 7, with 10 for a code over 15.
    pub fn udre_limit_hundredths(&self, health: u8) -> Result<Option<u32>, Refusal> {
        let (mut limited, mut hundredths) = (0, 0);
        ffi::rtcm2_general_udre(health, self.udre, &mut limited, &mut hundredths)?;
        Ok((limited == 1).then_some(hundredths))
    }

    fn row(&self) -> [u8; ROW] {
        let ([low, high], [delay_low, delay_high]) = (self.prc.to_le_bytes(), self.delay.to_le_bytes());
        [self.satellite, self.udre, self.iod, low, high, delay_low, delay_high]
    }

    fn of_row(row: [u8; ROW]) -> General {
        let [satellite, udre, iod, low, high, delay_low, delay_high] = row;
        let (prc, delay) = (i16::from_le_bytes([low, high]), u16::from_le_bytes([delay_low, delay_high]));
        General { satellite, udre, iod, prc, delay }
    }
}

/// A frame's head and its satellites.
#[derive(Clone, Copy, Debug, Default, PartialEq, Eq, Hash)]
pub struct Generals {
    /// The head.
    pub head: GeneralHead,
    /// The satellites.
    pub satellites: List<General, MOST>,
}

/// A null frame of type 42: it names a system, and says nothing more.
#[derive(Clone, Copy, Debug, Default, PartialEq, Eq, Hash)]
pub struct GeneralNull {
    /// N, which is 1.
    pub n: u8,
    /// The system.
    pub system: GeneralSystem,
}

impl Frame {
    /// How many general corrections the frame holds. Refused with 6, 7, 8, 23, 8.
    pub fn count_generals(&self) -> Result<usize, Refusal> {
        let mut count = 0;
        ffi::rtcm2_count_generals(self.as_bytes(), &mut count)?;
        Ok(count)
    }

    /// The head. Refused with 6, 7, 8, 23, 8.
    pub fn general_head(&self) -> Result<GeneralHead, Refusal> {
        let (mut head, mut system) = (GeneralHead::default(), 0);
        ffi::rtcm2_read_head(
            self.as_bytes(),
            &mut system,
            &mut head.signal,
            &mut head.ephemeris,
            &mut head.period,
            &mut head.ionosphere,
        )?;
        Ok(GeneralHead { system: GeneralSystem::of(system)?, ..head })
    }

    /// The general correction of an index, from 0. Refused with 6, 7, 8, 23, 8, 9, or 10 for
    /// satellite 0.
    pub fn general(&self, index: usize) -> Result<General, Refusal> {
        let mut row = [0; ROW];
        ffi::rtcm2_general_at(self.as_bytes(), index, &mut row)?;
        Ok(General::of_row(row))
    }

    /// Each general correction of the frame, or why it can't be read.
    pub fn generals(&self) -> Result<impl Iterator<Item = Result<General, Refusal>> + '_, Refusal> {
        Ok((0..self.count_generals()?).map(|index| self.general(index)))
    }

    /// A frame of 1 to 22 general corrections, with ionosphere 1 to 16. Refused with 5, 6, 7, 12 or 10.
    pub fn of_generals(header: Header, head: GeneralHead, satellites: &[General]) -> Result<Frame, Refusal> {
        let Header { kind, station, z, sequence, health } = header;
        let GeneralHead { system, signal, ephemeris, period, ionosphere } = head;
        let (system, bytes) = (system.number(), rows::<_, ROW, ROOM>(satellites, General::row));
        Frame::made(|frame, length| {
            ffi::rtcm2_make_generals(
                kind, station, z, sequence, health, system, signal, ephemeris, period, ionosphere, &bytes, frame,
                length,
            )
        })
    }

    /// The record of a null frame of type 42. Refused with 6, 7, 8 or 23.
    pub fn general_null(&self) -> Result<GeneralNull, Refusal> {
        let (mut n, mut system) = (0, 0);
        ffi::rtcm2_read_general_null(self.as_bytes(), &mut n, &mut system)?;
        Ok(GeneralNull { n, system: GeneralSystem::of(system)? })
    }

    /// A null frame of type 42. Refused with 5, 6, 7, or 12 for N not 1.
    pub fn of_general_null(header: Header, null: GeneralNull) -> Result<Frame, Refusal> {
        let Header { kind, station, z, sequence, health } = header;
        let (n, system) = (null.n, null.system.number());
        Frame::made(|frame, length| {
            ffi::rtcm2_make_general_null(kind, station, z, sequence, health, n, system, frame, length)
        })
    }
}
