//! Raw observations: types 18 and 19 of both systems, in both editions.

use crate::ffi;
use crate::frame::{rows, Frame, Header, System};
use crate::list::List;
use crate::Refusal;

/// The most satellites of a frame.
pub const MOST: usize = 15;
const ROW: usize = 12;
const ROOM: usize = (MOST + 1) * ROW;

/// The document whose meaning is asked for: they disagree on the first bit of a satellite.
#[derive(Clone, Copy, Debug, Default, PartialEq, Eq, Hash)]
pub enum Edition {
    /// GOST R 53612-2009.
    #[default]
    Gost,
    /// BD 410002-2015.
    Bd,
}

/// The head of a frame.
#[derive(Clone, Copy, Debug, Default, PartialEq, Eq, Hash)]
pub struct Epoch {
    /// The frequency code, 0 to 3.
    pub frequency: u8,
    /// Smoothing, 0 to 3; in type 18 two reserved bits.
    pub smoothing: u8,
    /// The time in microseconds, 0 to 599,999.
    pub time: u32,
}

/// What the first bit of a satellite is, and the bit, 0 or 1.
#[derive(Clone, Copy, Debug, PartialEq, Eq, Hash)]
pub enum Mark {
    /// Type 18 of GOST: half a wavelength.
    Half(u8),
    /// Type 19 of GOST.
    Reserved(u8),
    /// BD: more frames of the set follow.
    More(u8),
}

/// What was measured, in whole counts of its step.
#[derive(Clone, Copy, Debug, PartialEq, Eq, Hash)]
pub enum Measured {
    /// Type 18: losses of continuity, 0 to 31, and the phase of the carrier.
    Phase(u8, i32),
    /// Type 19: the multipath error, 0 to 15, and the range in steps of 0.02 m.
    Range(u8, u32),
}

/// One satellite's observation.
#[derive(Clone, Copy, Debug, PartialEq, Eq, Hash)]
pub struct Observation {
    /// Its first bit.
    pub mark: Mark,
    /// The code: 0 C/A, 1 P.
    pub code: u8,
    /// The system.
    pub system: System,
    /// The satellite, 1 to 32.
    pub satellite: u8,
    /// The quality, 0 to 7 in type 18, 0 to 15 in type 19.
    pub quality: u8,
    /// The number that was measured.
    pub measured: Measured,
}

impl Default for Observation {
    fn default() -> Observation {
        let (mark, measured) = (Mark::Half(0), Measured::Phase(0, 0));
        Observation { mark, code: 0, system: System::Gps, satellite: 0, quality: 0, measured }
    }
}

/// A frame's head and its satellites.
#[derive(Clone, Copy, Debug, Default, PartialEq, Eq, Hash)]
pub struct Observations {
    /// The head.
    pub epoch: Epoch,
    /// The satellites.
    pub satellites: List<Observation, MOST>,
}

impl Edition {
    fn number(self) -> u8 {
        self as u8
    }
}

impl Observation {
    fn row(&self) -> [u8; ROW] {
        let (mark, bit) = match self.mark {
            Mark::Half(bit) => (0, bit),
            Mark::Reserved(bit) => (1, bit),
            Mark::More(bit) => (2, bit),
        };
        let (last, sort, [a, b, c, d]) = match self.measured {
            Measured::Phase(losses, phase) => (losses, 0, phase.to_le_bytes()),
            Measured::Range(multipath, range) => (multipath, 1, range.to_le_bytes()),
        };
        [mark, bit, self.code, self.system as u8, self.satellite, self.quality, last, sort, a, b, c, d]
    }

    fn of_row(row: [u8; ROW]) -> Observation {
        let [mark, bit, code, system, satellite, quality, last, sort, a, b, c, d] = row;
        let number = [a, b, c, d];
        Observation {
            mark: match mark {
                0 => Mark::Half(bit),
                1 => Mark::Reserved(bit),
                _ => Mark::More(bit),
            },
            code,
            system: if system == 0 { System::Gps } else { System::Glonass },
            satellite,
            quality,
            measured: match sort {
                0 => Measured::Phase(last, i32::from_le_bytes(number)),
                _ => Measured::Range(last, u32::from_le_bytes(number)),
            },
        }
    }
}

impl Frame {
    /// How many satellites' observations the frame holds. Refused with 6, 7 or 8.
    pub fn count_observations(&self) -> Result<usize, Refusal> {
        let mut count = 0;
        ffi::rtcm2_count_observations(self.as_bytes(), &mut count)?;
        Ok(count)
    }

    /// The head. Refused with 6, 7, 8, or 10 for a time over 599,999.
    pub fn epoch(&self) -> Result<Epoch, Refusal> {
        let mut epoch = Epoch::default();
        ffi::rtcm2_read_epoch(self.as_bytes(), &mut epoch.frequency, &mut epoch.smoothing, &mut epoch.time)?;
        Ok(epoch)
    }

    /// The observation of an index, from 0, as an edition means it. Refused with 6, 7, 8, 9 or 10.
    pub fn observation(&self, edition: Edition, index: usize) -> Result<Observation, Refusal> {
        let mut row = [0; ROW];
        ffi::rtcm2_observation_at(edition.number(), self.as_bytes(), index, &mut row)?;
        Ok(Observation::of_row(row))
    }

    /// Each satellite's observation.
    pub fn observations(
        &self,
        edition: Edition,
    ) -> Result<impl Iterator<Item = Result<Observation, Refusal>> + '_, Refusal> {
        Ok((0..self.count_observations()?).map(move |index| self.observation(edition, index)))
    }

    /// A frame of 1 to 15 satellites' observations. Refused with 5, 6, 7, 12 or 10.
    pub fn of_observations(
        edition: Edition,
        header: Header,
        epoch: Epoch,
        satellites: &[Observation],
    ) -> Result<Frame, Refusal> {
        let Header { kind, station, z, sequence, health } = header;
        let Epoch { frequency, smoothing, time } = epoch;
        let bytes = rows::<_, ROW, ROOM>(satellites, Observation::row);
        Frame::made(|frame, length| {
            ffi::rtcm2_make_observations(
                edition.number(),
                kind,
                station,
                z,
                sequence,
                health,
                frequency,
                smoothing,
                time,
                &bytes,
                frame,
                length,
            )
        })
    }
}
