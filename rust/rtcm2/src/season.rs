//! Correction statistics over many journals: how far the corrections of each satellite wander.
//! Types 1, 9, 31 and 34 are counted, types 41 and 42 are not.

use crate::ffi;
use crate::frame::System;
use crate::Refusal;

const SIZE: usize = 14852;
const ROW: usize = 29;

/// What the corrections of one satellite of a station came to.
#[derive(Clone, Copy, Debug, PartialEq, Eq, Hash)]
pub struct Row {
    /// The system.
    pub system: System,
    /// The station.
    pub station: u16,
    /// The satellite.
    pub satellite: u8,
    /// How many corrections can be used.
    pub usable: u32,
    /// How many say to stop using the satellite.
    pub stops: u32,
    /// The least and the largest PRC in mm; none where no correction can be used.
    pub extremes: Option<(i32, i32)>,
    /// The sum of all PRC in mm, exact. The mean is this by [`Row::usable`].
    pub sum: i64,
}

impl Row {
    fn of_bytes(row: [u8; ROW]) -> Row {
        let number = |from: usize| [row[from], row[from + 1], row[from + 2], row[from + 3]];
        let extremes = (i32::from_le_bytes(number(13)), i32::from_le_bytes(number(17)));
        let mut sum = [0; 8];
        sum.copy_from_slice(&row[21..]);
        Row {
            system: if row[0] == 0 { System::Gps } else { System::Glonass },
            station: u16::from_le_bytes([row[1], row[2]]),
            satellite: row[3],
            usable: u32::from_le_bytes(number(4)),
            stops: u32::from_le_bytes(number(8)),
            extremes: (row[12] == 1).then_some(extremes),
            sum: i64::from_le_bytes(sum),
        }
    }
}

/// A report: up to 512 rows, in the order in which their satellites were first seen.
#[derive(Clone, PartialEq, Eq)]
pub struct Report {
    bytes: [u8; SIZE],
}

impl Default for Report {
    fn default() -> Report {
        Report::new()
    }
}

impl Report {
    /// A report of nothing.
    pub fn new() -> Report {
        let mut bytes = [0; SIZE];
        ffi::rtcm2_season_start(&mut bytes).expect("there is room");
        Report { bytes }
    }

    /// A report from its bytes. Refused with 5 where they are none.
    pub fn of_bytes(bytes: &[u8]) -> Result<Report, Refusal> {
        let first = bytes.get(..SIZE).ok_or(Refusal::Outside)?;
        let mut report = Report { bytes: [0; SIZE] };
        report.bytes.copy_from_slice(first);
        match report.row(0) {
            Ok(_) | Err(Refusal::NoEntry) => Ok(report),
            Err(refusal) => Err(refusal),
        }
    }

    /// The report as bytes, to be kept.
    pub fn as_bytes(&self) -> &[u8] {
        &self.bytes
    }

    /// Adds the corrections of the records at the start of the bytes, of either form, as far as they
    /// are recalled; how many bytes these have. Refused with 18 or 19, and then none is added.
    pub fn add_journal(&mut self, bytes: &[u8]) -> Result<usize, Refusal> {
        let mut used = 0;
        ffi::rtcm2_season_journal(&mut self.bytes, bytes, &mut used)?;
        Ok(used)
    }

    /// Adds another report. Refused with 18 or 19, and then nothing is added.
    pub fn add(&mut self, other: &Report) -> Result<(), Refusal> {
        ffi::rtcm2_season_add(&mut self.bytes, &other.bytes)
    }

    /// The row of an index, from 0. Refused with 9.
    pub fn row(&self, index: usize) -> Result<Row, Refusal> {
        let mut row = [0; ROW];
        ffi::rtcm2_season_row(&self.bytes, index, &mut row)?;
        Ok(Row::of_bytes(row))
    }

    /// Every row, in its order.
    pub fn rows(&self) -> impl Iterator<Item = Row> + '_ {
        (0..).map_while(|index| self.row(index).ok())
    }
}

#[cfg(feature = "std")]
mod over_read {
    use super::Report;
    use crate::frame::WORDS_MOST;
    use crate::journal::{recall, Unread};
    use crate::Refusal;
    use std::io::{ErrorKind, Read};
    use std::vec;

    impl Report {
        /// Adds the corrections of a journal that is read, up to its end or to where it can't be read
        /// on, which is answered. Refused with 18 or 19, and then nothing of the journal is added.
        pub fn add_from(&mut self, input: impl Read) -> Result<Option<Unread>, Refusal> {
            let before = self.clone();
            let added = self.add_pieces(input);
            if added.is_err() {
                *self = before;
            }
            added
        }

        fn add_pieces(&mut self, mut input: impl Read) -> Result<Option<Unread>, Refusal> {
            let mut buffer = vec![0; 65536];
            let (mut held, mut at) = (0, 0);
            loop {
                let used = self.add_journal(&buffer[..held])?;
                at += used as u64;
                buffer.copy_within(used..held, 0);
                held -= used;
                let left = |held: usize, buffer: &[u8]| match recall(&buffer[..held], at) {
                    Err(refusal) if held > 0 => Some(Unread::Refused(at, refusal)),
                    _ => None,
                };
                // With the bytes of the longest record there, what is left is no record.
                if held >= WORDS_MOST {
                    return Ok(left(held, &buffer));
                }
                match input.read(&mut buffer[held..]) {
                    Ok(0) => return Ok(left(held, &buffer)),
                    Ok(more) => held += more,
                    Err(error) if error.kind() == ErrorKind::Interrupted => {}
                    Err(error) => return Ok(Some(Unread::Failed(at + held as u64, error))),
                }
            }
        }
    }
}
