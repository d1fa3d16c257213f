//! General corrections and the null frame of type 42, through the model.

use super::of;
use crate::call::{Call, Function};
use rtcm2_model::library::generals::{self, Heading};
use rtcm2_model::library::numbers;
use rtcm2_model::record::general::GeneralHead;
use rtcm2_model::record::general_null::GeneralNull;

/// The calls that read a frame.
pub fn read(call: &mut Call) -> u8 {
    let [frame] = of(&mut call.read);
    let frame = frame.bytes();
    match call.function {
        Function::CountGenerals => {
            let [count] = of(&mut call.lent);
            generals::count_generals(frame, count.number())
        }
        Function::ReadHead => {
            let [system, signal, ephemeris, period, ionosphere] = of(&mut call.lent);
            let into = Heading {
                system: system.number(),
                signal: signal.number(),
                ephemeris: ephemeris.number(),
                period: period.number(),
                ionosphere: ionosphere.number(),
            };
            generals::read_head(frame, into)
        }
        Function::GeneralAt => {
            let (index, [row]) = (call.given[0] as usize, of(&mut call.lent));
            generals::general_at(frame, index, row.bytes())
        }
        Function::ReadGeneralNull => {
            let [n, system] = of(&mut call.lent);
            generals::read_general_null(frame, n.number(), system.number())
        }
        other => unreachable!("{other:?}"),
    }
}

pub fn make(call: &mut Call) -> u8 {
    let head = call.head();
    let [system, signal, ephemeris, period, ionosphere] =
        [5, 6, 7, 8, 9].map(|i| call.given[i] as u8);
    let general_head = GeneralHead {
        system,
        signal,
        ephemeris,
        period,
        ionosphere,
    };
    let ([rows], [frame, length]) = (of(&mut call.read), of(&mut call.lent));
    let (frame, length) = (frame.bytes(), length.number());
    generals::make_generals(head, general_head, rows.bytes(), frame, length)
}

pub fn make_null(call: &mut Call) -> u8 {
    let (head, [n, system]) = (call.head(), [5, 6].map(|i| call.given[i] as u8));
    let [frame, length] = of(&mut call.lent);
    let wanted = GeneralNull { n, system };
    generals::make_general_null(head, wanted, frame.bytes(), length.number())
}

/// What the numbers of such frames stand for.
pub fn number(call: &mut Call) -> u8 {
    let given = &call.given;
    if call.function == Function::UseSeconds {
        let [seconds] = of(&mut call.lent);
        return numbers::use_seconds(given[0] as u8, seconds.number());
    }
    let [is, value] = of(&mut call.lent);
    let is = is.number();
    match call.function {
        Function::GeneralPrcMm => numbers::general_prc_mm(given[0] as i16, is, value.number()),
        Function::DelayMm => numbers::delay_mm(given[0] as u16, is, value.number()),
        Function::GeneralUdre => {
            numbers::general_udre(given[0] as u8, given[1] as u8, is, value.number())
        }
        other => unreachable!("{other:?}"),
    }
}
