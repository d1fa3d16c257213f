//! Statistics over a season. A report is four bytes, the rows in use, and 512 rows of
//! 29 bytes; every number has its low byte first, and rows that are not in use are
//! zeros.

use super::lists::put_row;
use super::numbered;
use crate::record::System;
use crate::refusal::{refuse_if, Answer, Refusal};
use crate::season::{self, Key, Report, Row, MOST_ROWS};

/// Bytes of a row.
pub const ROW_SIZE: usize = 29;

/// Bytes of a report.
pub const REPORT_SIZE: usize = 4 + MOST_ROWS * ROW_SIZE;

/// Begins a report. Refuses with 13.
pub fn season_start(report: &mut [u8]) -> u8 {
    numbered(put_row(&report_bytes(&Report::default()), report))
}

/// Adds the records at the start of the bytes to a report and sets how many bytes they
/// are. Refuses with 5, 18, 19.
pub fn season_journal(report: &mut [u8], bytes: &[u8], used: &mut usize) -> u8 {
    numbered(journal_added(report, bytes, used))
}

fn journal_added(report: &mut [u8], bytes: &[u8], used: &mut usize) -> Answer<()> {
    let before = report_in(report)?;
    let taken = season::take_records(bytes);
    let all = season::add(&before, &season::of_entries(&taken.entries)?)?;
    put_row(&report_bytes(&all), report)?;
    *used = taken.used;
    Ok(())
}

/// Adds the second report to the first. Refuses with 5, 18, 19.
pub fn season_add(first: &mut [u8], second: &[u8]) -> u8 {
    let both = report_in(first).and_then(|before| season::add(&before, &report_in(second)?));
    numbered(both.and_then(|all| put_row(&report_bytes(&all), first)))
}

/// One row of a report. Refuses with 5, 9, 13.
pub fn season_row(report: &[u8], index: usize, row: &mut [u8]) -> u8 {
    let found = report_in(report).and_then(|report| {
        let found = report.rows.get(index);
        found.map(row_bytes).ok_or(Refusal::NoSuchEntry)
    });
    numbered(found.and_then(|found| put_row(&found, row)))
}

/// The bytes of a report of at most 512 rows.
pub fn report_bytes(report: &Report) -> Vec<u8> {
    let mut bytes = (report.rows.len() as u32).to_le_bytes().to_vec();
    bytes.extend(report.rows.iter().flat_map(row_bytes));
    bytes.resize(REPORT_SIZE, 0);
    bytes
}

/// The report at the start of the bytes. Refuses with 5 what a report can't be: too few
/// bytes, too many rows, bytes that are no row's, and as `season::check`.
pub fn report_in(bytes: &[u8]) -> Answer<Report> {
    let whole = bytes.get(..REPORT_SIZE).ok_or(Refusal::OutsideWidths)?;
    let (used, rows) = whole.split_at(4);
    let used = u32::from_le_bytes([used[0], used[1], used[2], used[3]]);
    refuse_if(used > MOST_ROWS as u32, Refusal::OutsideWidths)?;
    let rows = rows.chunks_exact(ROW_SIZE).take(used as usize);
    let read: Option<Vec<Row>> = rows.map(row_in).collect();
    let report = Report {
        rows: read.ok_or(Refusal::OutsideWidths)?,
    };
    season::check(&report)?;
    Ok(report)
}

/// The bytes of a row: system, 0 GPS, 1 GLONASS; station, satellite, usable and stop
/// entries; whether least and largest are there, and these, 0 where they are not; sum.
pub fn row_bytes(row: &Row) -> [u8; ROW_SIZE] {
    let (least, largest) = row.extremes.unwrap_or((0, 0));
    let system = match row.key.system {
        System::Gps => 0,
        System::Glonass => 1,
    };
    let mut bytes = [0; ROW_SIZE];
    bytes[0] = system;
    bytes[1..3].copy_from_slice(&row.key.station.to_le_bytes());
    bytes[3] = row.key.satellite;
    bytes[4..8].copy_from_slice(&row.usable.to_le_bytes());
    bytes[8..12].copy_from_slice(&row.stops.to_le_bytes());
    bytes[12] = u8::from(row.extremes.is_some());
    bytes[13..17].copy_from_slice(&least.to_le_bytes());
    bytes[17..21].copy_from_slice(&largest.to_le_bytes());
    bytes[21..].copy_from_slice(&row.sum.to_le_bytes());
    bytes
}

/// The row of these bytes, if they are one's: any station and satellite go.
fn row_in(bytes: &[u8]) -> Option<Row> {
    let four = |at: usize| [0, 1, 2, 3].map(|i| bytes[at + i]);
    let system = match bytes[0] {
        0 => System::Gps,
        1 => System::Glonass,
        _ => return None,
    };
    let extremes = match (bytes[12], four(13), four(17)) {
        (0, [0, 0, 0, 0], [0, 0, 0, 0]) => None,
        (1, least, largest) => Some((i32::from_le_bytes(least), i32::from_le_bytes(largest))),
        _ => return None,
    };
    Some(Row {
        key: Key {
            system,
            station: u16::from_le_bytes([bytes[1], bytes[2]]),
            satellite: bytes[3],
        },
        usable: u32::from_le_bytes(four(4)),
        stops: u32::from_le_bytes(four(8)),
        extremes,
        sum: i64::from_le_bytes([21, 22, 23, 24, 25, 26, 27, 28].map(|i| bytes[i])),
    })
}
