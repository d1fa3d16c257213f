//! `season`: correction statistics over many journals.

use crate::fault::{Fault, Outcome, Verdict};
use crate::input::open;
use crate::journal::unread;
use crate::output::Printer;
use rtcm2::season::{Report, Row};
use serde_json::json;
use std::path::{Path, PathBuf};

/// What all rows came to.
#[derive(Default)]
struct Total {
    usable: u64,
    stops: u64,
    extremes: Option<(i32, i32)>,
    sum: i128,
}

impl Total {
    fn of(report: &Report) -> Total {
        let mut total = Total::default();
        for row in report.rows() {
            total.usable += u64::from(row.usable);
            total.stops += u64::from(row.stops);
            total.sum += i128::from(row.sum);
            total.extremes = match (total.extremes, row.extremes) {
                (Some((least, largest)), Some((low, high))) => Some((least.min(low), largest.max(high))),
                (one, other) => one.or(other),
            };
        }
        total
    }
}

/// Prints the report of all journals. A journal that can't be read on is said, and counts up to there;
/// one that the report has no room for ends the run, and the report is that of the journals before it.
pub fn run(files: &[PathBuf], json: bool) -> Outcome {
    let (mut report, mut verdict) = (Report::new(), Verdict::Fine);
    for path in files {
        match add(&mut report, path) {
            Ok(()) => {}
            Err((fault, is_last)) => {
                verdict = verdict.max(fault.said());
                if is_last {
                    break;
                }
            }
        }
    }
    let mut printer = Printer::new();
    if json {
        objects(&report, &mut printer)?;
    } else {
        lines(&report, &mut printer)?;
    }
    printer.flush()?;
    Ok(verdict)
}

/// Adds a journal; why it was not added whole, and whether that ends the run.
fn add(report: &mut Report, path: &Path) -> Result<(), (Fault, bool)> {
    let line = open(path).map_err(|fault| (fault, false))?;
    let name = line.name.clone();
    match report.add_from(line) {
        Ok(None) => Ok(()),
        Ok(Some(amiss)) => Err((unread(&name, amiss), false)),
        Err(refusal) => Err((Fault::Refused(format!("{name}: {refusal}")), true)),
    }
}

fn lines(report: &Report, printer: &mut Printer) -> Result<(), Fault> {
    printer.line("# types 1, 9, 31 and 34 are counted, types 41 and 42 are not")?;
    printer.line("system\tstation\tsatellite\tusable\tstops\tleast\tlargest\tsum\tcount")?;
    for row in report.rows() {
        let Row { system, station, satellite, usable, stops, extremes, sum } = row;
        let (least, largest) = told(extremes);
        printer.line(format_args!(
            "{system}\t{station}\t{satellite}\t{usable}\t{stops}\t{least}\t{largest}\t{sum}\t{usable}"
        ))?;
    }
    let Total { usable, stops, extremes, sum } = Total::of(report);
    let (least, largest) = told(extremes);
    printer.line(format_args!("total\t-\t-\t{usable}\t{stops}\t{least}\t{largest}\t{sum}\t{usable}"))
}

/// The least and the largest, or a stroke for each.
fn told(extremes: Option<(i32, i32)>) -> (String, String) {
    match extremes {
        Some((least, largest)) => (least.to_string(), largest.to_string()),
        None => ("-".to_string(), "-".to_string()),
    }
}

fn objects(report: &Report, printer: &mut Printer) -> Result<(), Fault> {
    for row in report.rows() {
        printer.line(json!({
            "system": row.system.to_string(),
            "station": row.station,
            "satellite": row.satellite,
            "usable": row.usable,
            "stops": row.stops,
            "least_mm": row.extremes.map(|(least, _)| least),
            "largest_mm": row.extremes.map(|(_, largest)| largest),
            "sum_mm": row.sum,
        }))?;
    }
    let total = Total::of(report);
    // A sum that passes 64 bits, of more than 2^39 corrections, is null: readers of JSON have no such number.
    let sum = i64::try_from(total.sum).ok();
    printer.line(json!({
        "total": true,
        "usable": total.usable,
        "stops": total.stops,
        "least_mm": total.extremes.map(|(least, _)| least),
        "largest_mm": total.extremes.map(|(_, largest)| largest),
        "sum_mm": sum,
    }))
}
