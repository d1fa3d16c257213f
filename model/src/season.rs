//! Statistics over a season: of the corrections in journals, for each system, station
//! and satellite, how many are usable and how many stop, the least and the largest PRC
//! in mm and their exact sum.

use crate::frame::Frame;
use crate::record::correction::Correction;
use crate::record::list::List;
use crate::record::values::{prc_mm, stops, Value};
use crate::record::{system, System};
use crate::refusal::{refuse_if, Answer, Refusal};
use crate::{journal, word_journal};
use std::collections::HashSet;

/// Most rows of a report.
pub const MOST_ROWS: usize = 512;

/// Whose corrections a row counts.
#[derive(Clone, Copy, Debug, PartialEq, Eq, Hash)]
pub struct Key {
    /// Types 1 and 9 are GPS, 31 and 34 GLONASS.
    pub system: System,
    /// Station, 0 to 1023.
    pub station: u16,
    /// Satellite, 1 to 32.
    pub satellite: u8,
}

/// One correction that was read.
#[derive(Clone, Copy, Debug, PartialEq, Eq)]
pub struct Entry {
    /// Whose it is.
    pub key: Key,
    /// Stop, or its PRC in mm.
    pub value: Value,
}

/// What a report says of a key.
#[derive(Clone, Copy, Debug, PartialEq, Eq)]
pub struct Row {
    /// Of whom.
    pub key: Key,
    /// Number of usable entries.
    pub usable: u32,
    /// Number of stop entries.
    pub stops: u32,
    /// Least and largest PRC in mm, where an entry is usable.
    pub extremes: Option<(i32, i32)>,
    /// Exact sum of the PRC of all usable entries, in mm.
    pub sum: i64,
}

/// A row for each key, in the order first seen.
#[derive(Clone, Debug, Default, PartialEq, Eq)]
pub struct Report {
    /// The rows.
    pub rows: Vec<Row>,
}

/// The entries of a frame's corrections, those that can be read; none where the frame
/// holds no corrections or their number can't be read.
pub fn entries_of(frame: &Frame) -> Vec<Entry> {
    let count = Correction::count(frame).unwrap_or(0);
    let read = (0..count).filter_map(|i| Correction::entry(frame, i).ok());
    let entry = |found: Correction| Entry {
        key: Key {
            system: system(frame.header.type_number),
            station: frame.header.station,
            satellite: found.satellite,
        },
        value: match prc_mm(found.scale, found.prc) {
            Ok(value) if !stops(found.prc, found.rrc) => value,
            _ => Value::Stop,
        },
    };
    read.map(entry).collect()
}

/// Recalls the record at the start of the bytes, of either form. Refuses with 14, 15,
/// 16, 15, 16, 17.
pub fn recall(bytes: &[u8]) -> Answer<(Frame, usize)> {
    if bytes.starts_with(&word_journal::MARK) {
        word_journal::recall(bytes)
    } else {
        journal::recall(bytes)
    }
}

/// What stands at the start of some bytes of a journal.
#[derive(Clone, Debug, PartialEq, Eq)]
pub struct Taken {
    /// The entries of its records.
    pub entries: Vec<Entry>,
    /// Bytes of these records.
    pub used: usize,
}

/// The records from the start on, while they recall.
pub fn take_records(bytes: &[u8]) -> Taken {
    let (mut entries, mut used) = (Vec::new(), 0);
    while let Ok((frame, length)) = recall(&bytes[used..]) {
        entries.extend(entries_of(&frame));
        used += length;
    }
    Taken { entries, used }
}

/// Each key once, in the order first seen.
fn first_seen(keys: impl Iterator<Item = Key>) -> Vec<Key> {
    let mut seen = HashSet::new();
    keys.filter(|key| seen.insert(*key)).collect()
}

/// Refuses a report that can't be one: more than 512 rows, one key in two rows, or a
/// sum that is not from count times least to count times largest. Refuses with 5.
pub fn check(report: &Report) -> Answer<()> {
    let rows = &report.rows;
    let twice = first_seen(rows.iter().map(|row| row.key)).len() < rows.len();
    let wrong = rows.len() > MOST_ROWS || twice || !rows.iter().all(sum_is_possible);
    refuse_if(wrong, Refusal::OutsideWidths)
}

/// Whether the sum and the extremes can be those of so many entries.
fn sum_is_possible(row: &Row) -> bool {
    let times = |end: i32| i128::from(row.usable) * i128::from(end);
    match (row.usable, row.extremes) {
        (0, None) => row.sum == 0,
        (0, Some(_)) | (_, None) => false,
        (_, Some((least, largest))) => (times(least)..=times(largest)).contains(&row.sum.into()),
    }
}

/// What is known of a key before its counts are known to fit.
struct Totals {
    key: Key,
    usable: u64,
    stops: u64,
    extremes: Option<(i32, i32)>,
    sum: i128,
}

impl Totals {
    /// The row. Refuses with 19.
    fn row(self) -> Answer<Row> {
        let count = |number: u64| u32::try_from(number).map_err(|_| Refusal::CountPasses);
        Ok(Row {
            key: self.key,
            usable: count(self.usable)?,
            stops: count(self.stops)?,
            extremes: self.extremes,
            sum: i64::try_from(self.sum).expect("below 2^32 numbers of 32 bits"),
        })
    }
}

/// The report of a row for each of these keys. Refuses with 18, 19.
fn report_of(keys: &[Key], totals: impl Fn(Key) -> Totals) -> Answer<Report> {
    refuse_if(keys.len() > MOST_ROWS, Refusal::NoRow)?;
    let rows: Answer<Vec<Row>> = keys.iter().map(|key| totals(*key).row()).collect();
    Ok(Report { rows: rows? })
}

/// The report of entries, each total over all entries of its key. Refuses with 18, 19.
pub fn of_entries(entries: &[Entry]) -> Answer<Report> {
    let keys = first_seen(entries.iter().map(|entry| entry.key));
    report_of(&keys, |key| {
        let own: Vec<&Entry> = entries.iter().filter(|entry| entry.key == key).collect();
        let usable: Vec<i32> = own.iter().filter_map(|entry| mm(entry.value)).collect();
        let ends = usable.iter().min().zip(usable.iter().max());
        Totals {
            key,
            usable: usable.len() as u64,
            stops: (own.len() - usable.len()) as u64,
            extremes: ends.map(|(least, largest)| (*least, *largest)),
            sum: usable.iter().map(|mm| i128::from(*mm)).sum(),
        }
    })
}

/// The number of a value that is one.
fn mm(value: Value) -> Option<i32> {
    match value {
        Value::Stop => None,
        Value::Is(mm) => Some(mm),
    }
}

/// The second report added to the first. Refuses with 5, 18, 19.
pub fn add(first: &Report, second: &Report) -> Answer<Report> {
    check(first)?;
    check(second)?;
    let all = || first.rows.iter().chain(&second.rows);
    let keys = first_seen(all().map(|row| row.key));
    report_of(&keys, |key| {
        let own: Vec<&Row> = all().filter(|row| row.key == key).collect();
        let ends = || own.iter().filter_map(|row| row.extremes);
        let least = ends().map(|(least, _)| least).min();
        let largest = ends().map(|(_, largest)| largest).max();
        Totals {
            key,
            usable: own.iter().map(|row| u64::from(row.usable)).sum(),
            stops: own.iter().map(|row| u64::from(row.stops)).sum(),
            extremes: least.zip(largest),
            sum: own.iter().map(|row| i128::from(row.sum)).sum(),
        }
    })
}
