//! Constellation health: type 5 of GPS, type 33 of GLONASS.

use crate::ffi;
use crate::frame::{rows, Frame, Header, System};
use crate::list::List;
use crate::Refusal;

/// The most satellites of a frame.
pub const MOST: usize = 31;
const ROW: usize = 10;
const ROOM: usize = (MOST + 1) * ROW;

/// The satellites of a frame.
pub type Healths = List<SatelliteHealth, MOST>;

/// What the three health bits of a satellite say.
#[derive(Clone, Copy, Debug, PartialEq, Eq, Hash)]
pub enum Condition {
    /// GPS: a code of 0 to 7.
    Code(u8),
    /// GLONASS: the data health, 0 or 1, and two reserved bits, 0 to 3.
    Data(u8, u8),
}

impl Default for Condition {
    fn default() -> Condition {
        Condition::Code(0)
    }
}

/// One satellite's health, numbers as sent.
#[derive(Clone, Copy, Debug, Default, PartialEq, Eq, Hash)]
pub struct SatelliteHealth {
    /// A reserved bit.
    pub reserved: u8,
    /// The satellite, 1 to 32.
    pub satellite: u8,
    /// The link to IOD or tb, 0 or 1.
    pub link: u8,
    /// The three health bits.
    pub health: Condition,
    /// The C/N0 code, 0 to 31.
    pub cn0: u8,
    /// Whether the satellite may be used though its data says otherwise, 0 or 1.
    pub enable: u8,
    /// Whether there is new data, 0 or 1.
    pub new_data: u8,
    /// The warning that the satellite will be lost, 0 or 1.
    pub loss: u8,
    /// The time until then, 0 to 15, 5 minutes each.
    pub time: u8,
    /// Two reserved bits, 0 to 3.
    pub spare: u8,
}

impl SatelliteHealth {
    /// C/N0 in dBHz; none where the satellite is not tracked. Refused with 10 for a code over 31.
    pub fn cn0_dbhz(&self) -> Result<Option<u8>, Refusal> {
        let (mut tracked, mut dbhz) = (0, 0);
        ffi::rtcm2_cn0_dbhz(self.cn0, &mut tracked, &mut dbhz)?;
        Ok((tracked == 1).then_some(dbhz))
    }

    /// The time until the satellite is lost, in minutes.
    pub fn minutes(&self) -> u16 {
        5 * u16::from(self.time)
    }

    // Health bits that are not told as the system tells them, or are wider than they can be, are a
    // byte out of range, so that the library refuses them in their place, with 10.
    fn row(&self, system: System) -> [u8; ROW] {
        let health = match (self.health, system) {
            (Condition::Code(code), System::Gps) => code,
            (Condition::Data(data @ 0..=1, reserved @ 0..=3), System::Glonass) => data << 2 | reserved,
            _ => u8::MAX,
        };
        let SatelliteHealth { reserved, satellite, link, cn0, enable, new_data, loss, time, spare, .. } = *self;
        [reserved, satellite, link, health, cn0, enable, new_data, loss, time, spare]
    }

    fn of_row(row: [u8; ROW], system: System) -> SatelliteHealth {
        let [reserved, satellite, link, health, cn0, enable, new_data, loss, time, spare] = row;
        let health = match system {
            System::Gps => Condition::Code(health),
            System::Glonass => Condition::Data(health >> 2, health & 3),
        };
        SatelliteHealth { reserved, satellite, link, health, cn0, enable, new_data, loss, time, spare }
    }
}

impl Frame {
    /// How many satellites' health the frame holds. Refused with 6, 7 or 8.
    pub fn count_healths(&self) -> Result<usize, Refusal> {
        let mut count = 0;
        ffi::rtcm2_count_healths(self.as_bytes(), &mut count)?;
        Ok(count)
    }

    /// The satellite's health of an index, from 0. Refused with 6, 7, 8 or 9.
    pub fn health(&self, index: usize) -> Result<SatelliteHealth, Refusal> {
        let mut row = [0; ROW];
        ffi::rtcm2_health_at(self.as_bytes(), index, &mut row)?;
        Ok(SatelliteHealth::of_row(row, self.header().system()))
    }

    /// Each satellite's health.
    pub fn healths(&self) -> Result<impl Iterator<Item = Result<SatelliteHealth, Refusal>> + '_, Refusal> {
        Ok((0..self.count_healths()?).map(|index| self.health(index)))
    }

    /// A frame of 1 to 31 satellites' health. Refused with 5, 6, 7, 12, or 10, also for health bits
    /// as the other system tells them.
    pub fn of_healths(header: Header, healths: &[SatelliteHealth]) -> Result<Frame, Refusal> {
        let Header { kind, station, z, sequence, health } = header;
        let bytes = rows::<_, ROW, ROOM>(healths, |entry| entry.row(header.system()));
        Frame::made(|frame, length| ffi::rtcm2_make_healths(kind, station, z, sequence, health, &bytes, frame, length))
    }
}
