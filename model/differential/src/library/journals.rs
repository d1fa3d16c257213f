//! Records that keep the words, and the mender, through the static library.

use super::{at, of};
use crate::call::{Call, Function};
use crate::header::*;

pub fn words(call: &mut Call) -> u8 {
    let [bytes] = of(&mut call.read);
    let (size, bytes) = (bytes.size(), at(bytes));
    match call.function {
        Function::KeepWords => {
            let [d29, d30] = [0, 1].map(|i| call.given[i] as u8);
            let [words, length] = of(&mut call.lent);
            let (room, words) = (words.size(), at(words));
            unsafe { rtcm2_keep_words(bytes, size, d29, d30, words, room, at(length)) }
        }
        Function::RecallWords => {
            let [frame, d29, d30, read, length] = of(&mut call.lent);
            let (room, frame) = (frame.size(), at(frame));
            let (d29, d30, read, length) = (at(d29), at(d30), at(read), at(length));
            unsafe { rtcm2_recall_words(bytes, size, frame, room, d29, d30, read, length) }
        }
        other => unreachable!("{other:?}"),
    }
}

pub fn mend(call: &mut Call) -> u8 {
    let (offset, searching) = (call.given[0] as u64, call.given[1] as u8);
    let [bytes, report, step, read, written] = of(&mut call.lent);
    let (size, bytes) = (bytes.size(), at(bytes));
    let (room, report) = (report.size(), at(report));
    let (step, read, written) = (at(step), at(read), at(written));
    unsafe {
        rtcm2_mend(
            bytes, size, offset, searching, report, room, step, read, written,
        )
    }
}
