//! General corrections and the null frame of type 42, through the static library.

use super::{at, of};
use crate::call::{Call, Function};
use crate::header::*;

/// The calls that read a frame.
pub fn read(call: &mut Call) -> u8 {
    let [frame] = of(&mut call.read);
    let (size, frame) = (frame.size(), at(frame));
    match call.function {
        Function::CountGenerals => {
            let [count] = of(&mut call.lent);
            unsafe { rtcm2_count_generals(frame, size, at(count)) }
        }
        Function::ReadHead => {
            let [system, signal, ephemeris, period, ionosphere] = of(&mut call.lent);
            let (system, signal, ephemeris) = (at(system), at(signal), at(ephemeris));
            let (period, ionosphere) = (at(period), at(ionosphere));
            unsafe { rtcm2_read_head(frame, size, system, signal, ephemeris, period, ionosphere) }
        }
        Function::GeneralAt => {
            let (index, [row]) = (call.given[0] as usize, of(&mut call.lent));
            unsafe { rtcm2_general_at(frame, size, index, at(row), row.size()) }
        }
        Function::ReadGeneralNull => {
            let [n, system] = of(&mut call.lent);
            unsafe { rtcm2_read_general_null(frame, size, at(n), at(system)) }
        }
        other => unreachable!("{other:?}"),
    }
}

pub fn make(call: &mut Call) -> u8 {
    let head = call.head();
    let [system, signal, ephemeris, period, ionosphere] =
        [5, 6, 7, 8, 9].map(|i| call.given[i] as u8);
    let ([rows], [frame, length]) = (of(&mut call.read), of(&mut call.lent));
    let (size, rows) = (rows.size(), at(rows));
    let (room, frame) = (frame.size(), at(frame));
    unsafe {
        rtcm2_make_generals(
            head.kind,
            head.station,
            head.z,
            head.sequence,
            head.health,
            system,
            signal,
            ephemeris,
            period,
            ionosphere,
            rows,
            size,
            frame,
            room,
            at(length),
        )
    }
}

pub fn make_null(call: &mut Call) -> u8 {
    let (head, [n, system]) = (call.head(), [5, 6].map(|i| call.given[i] as u8));
    let [frame, length] = of(&mut call.lent);
    let (room, frame) = (frame.size(), at(frame));
    unsafe {
        rtcm2_make_general_null(
            head.kind,
            head.station,
            head.z,
            head.sequence,
            head.health,
            n,
            system,
            frame,
            room,
            at(length),
        )
    }
}

/// What the numbers of such frames stand for.
pub fn number(call: &mut Call) -> u8 {
    let given = &call.given;
    if call.function == Function::UseSeconds {
        let [seconds] = of(&mut call.lent);
        return unsafe { rtcm2_use_seconds(given[0] as u8, at(seconds)) };
    }
    let [is, value] = of(&mut call.lent);
    match call.function {
        Function::GeneralPrcMm => unsafe {
            rtcm2_general_prc_mm(given[0] as i16, at(is), at(value))
        },
        Function::DelayMm => unsafe { rtcm2_delay_mm(given[0] as u16, at(is), at(value)) },
        Function::GeneralUdre => unsafe {
            rtcm2_general_udre(given[0] as u8, given[1] as u8, at(is), at(value))
        },
        other => unreachable!("{other:?}"),
    }
}
