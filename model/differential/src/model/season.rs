//! Reports of a season, through the model.

use super::of;
use crate::call::{Call, Function};
use rtcm2_model::library::season;

pub fn season(call: &mut Call) -> u8 {
    match call.function {
        Function::SeasonStart => {
            let [report] = of(&mut call.lent);
            season::season_start(report.bytes())
        }
        Function::SeasonJournal => {
            let ([bytes], [report, used]) = (of(&mut call.read), of(&mut call.lent));
            season::season_journal(report.bytes(), bytes.bytes(), used.number())
        }
        Function::SeasonAdd => {
            let ([second], [first]) = (of(&mut call.read), of(&mut call.lent));
            season::season_add(first.bytes(), second.bytes())
        }
        Function::SeasonRow => {
            let ([report], [row]) = (of(&mut call.read), of(&mut call.lent));
            season::season_row(report.bytes(), call.given[0] as usize, row.bytes())
        }
        other => unreachable!("{other:?}"),
    }
}
