//! General corrections, types 41 and 42, and the null frame of type 42. A satellite is
//! a row of bytes.

use super::lists::{put_row, row_count};
use super::{frame_in, keep_frame, numbered, Head};
use crate::record::general::{self, General, GeneralHead};
use crate::record::general_null::{self, GeneralNull};
use crate::refusal::Answer;

/// Bytes of a satellite.
pub const GENERAL_SIZE: usize = 7;

/// Number of satellites. Refuses with 14, 15, 16, 15, 16, 6, 7, 8, 23, 8.
pub fn count_generals(frame: &[u8], count: &mut usize) -> u8 {
    let counted = frame_in(frame).and_then(|frame| general::count(&frame));
    numbered(counted.map(|found| *count = found))
}

/// What `read_head` sets.
pub struct Heading<'a> {
    /// System.
    pub system: &'a mut u8,
    /// Signal.
    pub signal: &'a mut u8,
    /// Ephemeris type.
    pub ephemeris: &'a mut u8,
    /// How long the corrections may be used.
    pub period: &'a mut u8,
    /// Whether there are delays.
    pub ionosphere: &'a mut u8,
}

/// Reads the head. Refuses with 14, 15, 16, 15, 16, 6, 7, 8, 23, 8.
pub fn read_head(frame: &[u8], into: Heading) -> u8 {
    let read = frame_in(frame).and_then(|frame| general::head(&frame));
    numbered(read.map(|head| {
        *into.system = head.system;
        *into.signal = head.signal;
        *into.ephemeris = head.ephemeris;
        *into.period = head.period;
        *into.ionosphere = head.ionosphere;
    }))
}

/// One satellite. Refuses with 14, 15, 16, 15, 16, 6, 7, 8, 23, 8, 9, 10, 13.
pub fn general_at(frame: &[u8], index: usize, row: &mut [u8]) -> u8 {
    let found = frame_in(frame).and_then(|frame| general::entry(&frame, index));
    numbered(found.and_then(|entry| put_row(&general_row(&entry), row)))
}

/// Makes a frame of general corrections. Refuses with 5, 6, 7, 23, 12, 10, 13.
pub fn make_generals(
    head: Head,
    general_head: GeneralHead,
    rows: &[u8],
    frame: &mut [u8],
    length: &mut usize,
) -> u8 {
    numbered(generals_made(head, general_head, rows, frame, length))
}

fn generals_made(
    head: Head,
    general_head: GeneralHead,
    rows: &[u8],
    frame: &mut [u8],
    length: &mut usize,
) -> Answer<()> {
    let mut entries = [General::default(); general::MOST];
    for (entry, row) in entries.iter_mut().zip(rows.chunks_exact(GENERAL_SIZE)) {
        *entry = general_of(row);
    }
    let count = row_count(rows, GENERAL_SIZE);
    let made = general::make(&head.header()?, &general_head, &entries, count)?;
    keep_frame(&made, frame, length)
}

/// Reads a null frame of type 42. Refuses with 14, 15, 16, 15, 16, 6, 7, 8, 23.
pub fn read_general_null(frame: &[u8], n: &mut u8, system: &mut u8) -> u8 {
    let read = frame_in(frame).and_then(|frame| general_null::read(&frame));
    numbered(read.map(|found| (*n, *system) = (found.n, found.system)))
}

/// Makes a null frame of type 42. Refuses with 5, 6, 7, 23, 12, 13.
pub fn make_general_null(
    head: Head,
    wanted: GeneralNull,
    frame: &mut [u8],
    length: &mut usize,
) -> u8 {
    let made = head
        .header()
        .and_then(|header| general_null::make(&header, &wanted));
    numbered(made.and_then(|made| keep_frame(&made, frame, length)))
}

/// The row of a satellite: satellite, UDRE, IOD, then PRC in two's complement and the
/// delay, each in two bytes, the low one first.
pub fn general_row(entry: &General) -> [u8; GENERAL_SIZE] {
    let [prc_low, prc_high] = entry.prc.to_le_bytes();
    let [delay_low, delay_high] = entry.delay.to_le_bytes();
    [
        entry.satellite,
        entry.udre,
        entry.iod,
        prc_low,
        prc_high,
        delay_low,
        delay_high,
    ]
}

fn general_of(row: &[u8]) -> General {
    General {
        satellite: row[0],
        udre: row[1],
        iod: row[2],
        prc: i16::from_le_bytes([row[3], row[4]]),
        delay: u16::from_le_bytes([row[5], row[6]]),
    }
}
