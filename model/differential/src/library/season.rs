//! Reports of a season, through the static library.

use super::{at, of};
use crate::call::{Call, Function};
use crate::header::*;

pub fn season(call: &mut Call) -> u8 {
    match call.function {
        Function::SeasonStart => {
            let [report] = of(&mut call.lent);
            unsafe { rtcm2_season_start(at(report), report.size()) }
        }
        Function::SeasonJournal => {
            let ([bytes], [report, used]) = (of(&mut call.read), of(&mut call.lent));
            let (count, bytes) = (bytes.size(), at(bytes));
            let (size, report) = (report.size(), at(report));
            unsafe { rtcm2_season_journal(report, size, bytes, count, at(used)) }
        }
        Function::SeasonAdd => {
            let ([second], [first]) = (of(&mut call.read), of(&mut call.lent));
            let (second_size, second) = (second.size(), at(second));
            unsafe { rtcm2_season_add(at(first), first.size(), second, second_size) }
        }
        Function::SeasonRow => {
            let ([report], [row]) = (of(&mut call.read), of(&mut call.lent));
            let (size, report) = (report.size(), at(report));
            let index = call.given[0] as usize;
            unsafe { rtcm2_season_row(report, size, index, at(row), row.size()) }
        }
        other => unreachable!("{other:?}"),
    }
}
