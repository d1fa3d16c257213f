//! What the program `season` prints of journal files.

use crate::record::System;
use crate::season::{self, Report, Row};

/// The first two lines.
const OPENING: &str = "# types 1, 9, 31 and 34 are counted, types 41 and 42 are not\n\
    system\tstation\tsatellite\tusable\tstops\tleast\tlargest\tsum\tcount\n";

/// The two texts of a run.
#[derive(Clone, Debug, Default, PartialEq, Eq)]
pub struct Printed {
    /// To standard output.
    pub output: String,
    /// To standard error.
    pub errors: String,
}

/// A run over files, each with its name: the report of all their records, up to where
/// a file can't be read; the files before one that is refused with 18 or 19.
pub fn run(files: &[(&str, &[u8])]) -> Printed {
    run_from(&Report::default(), files)
}

/// A run that adds to a report.
pub fn run_from(report: &Report, files: &[(&str, &[u8])]) -> Printed {
    let (mut report, mut errors) = (report.clone(), String::new());
    for (name, bytes) in files {
        let taken = season::take_records(bytes);
        let own = season::of_entries(&taken.entries);
        match own.and_then(|own| season::add(&report, &own)) {
            Ok(all) => report = all,
            Err(refusal) => {
                errors += &format!("season: {name}: refusal {}\n", refusal.number());
                break;
            }
        }
        let rest = &bytes[taken.used..];
        if let (false, Err(refusal)) = (rest.is_empty(), season::recall(rest)) {
            let (number, at) = (refusal.number(), taken.used);
            errors += &format!("season: {name}: refusal {number} at byte {at}\n");
        }
    }
    Printed {
        output: text(&report),
        errors,
    }
}

/// The report as text.
fn text(report: &Report) -> String {
    let rows: String = report.rows.iter().map(line).collect();
    OPENING.to_string() + &rows + &total(&report.rows)
}

/// The line of a row.
fn line(row: &Row) -> String {
    let system = match row.key.system {
        System::Gps => "GPS",
        System::Glonass => "GLONASS",
    };
    let numbers = numbers(
        row.usable.into(),
        row.stops.into(),
        row.extremes,
        row.sum.into(),
    );
    format!(
        "{system}\t{}\t{}\t{numbers}\n",
        row.key.station, row.key.satellite
    )
}

/// The line of all rows together.
fn total(rows: &[Row]) -> String {
    let ends = || rows.iter().filter_map(|row| row.extremes);
    let least = ends().map(|(least, _)| least).min();
    let largest = ends().map(|(_, largest)| largest).max();
    let usable = rows.iter().map(|row| u64::from(row.usable)).sum();
    let stops = rows.iter().map(|row| u64::from(row.stops)).sum();
    let sum = rows.iter().map(|row| i128::from(row.sum)).sum();
    format!(
        "total\t-\t-\t{}\n",
        numbers(usable, stops, least.zip(largest), sum)
    )
}

/// Usable and stop entries, least, largest, sum, and the count to divide it by.
fn numbers(usable: u64, stops: u64, extremes: Option<(i32, i32)>, sum: i128) -> String {
    let (least, largest) = match extremes {
        Some((least, largest)) => (least.to_string(), largest.to_string()),
        None => ("-".to_string(), "-".to_string()),
    };
    format!("{usable}\t{stops}\t{least}\t{largest}\t{sum}\t{usable}")
}
