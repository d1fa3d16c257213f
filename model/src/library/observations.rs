//! Raw observations, types 18 and 19. An edition is 0 for GOST and 1 for
//! BD; a satellite is a row of bytes.

use super::lists::{put_row, row_count};
use super::{frame_in, keep_frame, numbered, Head};
use crate::record::observation::{self, Edition, Epoch, Mark, Measured, Observation};
use crate::refusal::{Answer, Refusal};

/// Bytes of an observation.
pub const OBSERVATION_SIZE: usize = 12;

/// The edition of a number. Refuses with 5.
fn edition_of(number: u8) -> Answer<Edition> {
    match number {
        0 => Ok(Edition::Gost),
        1 => Ok(Edition::Bd),
        _ => Err(Refusal::OutsideWidths),
    }
}

/// Number of satellites. Refuses with 14, 15, 16, 15, 16, 6, 7, 8.
pub fn count_observations(frame: &[u8], count: &mut usize) -> u8 {
    let counted = frame_in(frame).and_then(|frame| observation::count(&frame));
    numbered(counted.map(|found| *count = found))
}

/// Reads the epoch. Refuses with 14, 15, 16, 15, 16, 6, 7, 8, 10.
pub fn read_epoch(frame: &[u8], frequency: &mut u8, smoothing: &mut u8, time: &mut u32) -> u8 {
    let read = frame_in(frame).and_then(|frame| observation::epoch(&frame));
    numbered(read.map(|epoch| {
        *frequency = epoch.frequency;
        *smoothing = epoch.smoothing;
        *time = epoch.time;
    }))
}

/// One satellite, in the meaning of an edition. Refuses with 14, 15, 16, 15, 16, 5, 6,
/// 7, 8, 9, 10, 13.
pub fn observation_at(edition: u8, frame: &[u8], index: usize, row: &mut [u8]) -> u8 {
    let found =
        frame_in(frame).and_then(|frame| observation::entry(edition_of(edition)?, &frame, index));
    numbered(found.and_then(|entry| put_row(&observation_row(&entry), row)))
}

/// Makes a frame of observations, meant by an edition. Refuses with 5, 6, 7, 12, 10,
/// 13.
pub fn make_observations(
    edition: u8,
    head: Head,
    epoch: Epoch,
    rows: &[u8],
    frame: &mut [u8],
    length: &mut usize,
) -> u8 {
    numbered(made(edition, head, epoch, rows, frame, length))
}

fn made(
    edition: u8,
    head: Head,
    epoch: Epoch,
    rows: &[u8],
    frame: &mut [u8],
    length: &mut usize,
) -> Answer<()> {
    let mut entries = [observation::NONE; observation::MOST];
    for (entry, row) in entries.iter_mut().zip(rows.chunks_exact(OBSERVATION_SIZE)) {
        *entry = observation_of(row);
    }
    let (edition, header) = (edition_of(edition)?, head.header()?);
    let count = row_count(rows, OBSERVATION_SIZE);
    let made = observation::make(edition, &header, &epoch, &entries, count)?;
    keep_frame(&made, frame, length)
}

/// The row of an observation: which mark, 0 half wavelength, 1 reserved, 2 more
/// follow, and its bit; code, system, satellite, quality; losses or multipath; which
/// number, 0 phase, 1 range, and its four bytes, the low one first.
pub fn observation_row(entry: &Observation) -> [u8; OBSERVATION_SIZE] {
    let (which, bit) = match entry.mark {
        Mark::Half(bit) => (0, bit),
        Mark::Reserved(bit) => (1, bit),
        Mark::More(bit) => (2, bit),
    };
    let (second, number, four) = match entry.measured {
        Measured::Phase { losses, phase } => (losses, 0, phase.to_le_bytes()),
        Measured::Range { multipath, range } => (multipath, 1, range.to_le_bytes()),
    };
    let mut row = [0; OBSERVATION_SIZE];
    row[..8].copy_from_slice(&[
        which,
        bit,
        entry.code,
        entry.system,
        entry.satellite,
        entry.quality,
        second,
        number,
    ]);
    row[8..].copy_from_slice(&four);
    row
}

/// The observation of a row; one that can't be made where it says no mark or number.
fn observation_of(row: &[u8]) -> Observation {
    let four = [row[8], row[9], row[10], row[11]];
    let mark = match row[0] {
        0 => Mark::Half(row[1]),
        1 => Mark::Reserved(row[1]),
        2 => Mark::More(row[1]),
        _ => return observation::NONE,
    };
    let measured = match row[7] {
        0 => Measured::Phase {
            losses: row[6],
            phase: i32::from_le_bytes(four),
        },
        1 => Measured::Range {
            multipath: row[6],
            range: u32::from_le_bytes(four),
        },
        _ => return observation::NONE,
    };
    Observation {
        mark,
        code: row[2],
        system: row[3],
        satellite: row[4],
        quality: row[5],
        measured,
    }
}
