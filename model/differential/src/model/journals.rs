//! Records that keep the words, and the mender, through the model.

use super::of;
use crate::call::{Call, Function};
use rtcm2_model::library::journals::{self, Mending, Recalling};

pub fn words(call: &mut Call) -> u8 {
    let [bytes] = of(&mut call.read);
    let bytes = bytes.bytes();
    match call.function {
        Function::KeepWords => {
            let [d29, d30] = [0, 1].map(|i| call.given[i] as u8);
            let [words, length] = of(&mut call.lent);
            journals::keep_words(bytes, d29, d30, words.bytes(), length.number())
        }
        Function::RecallWords => {
            let [frame, d29, d30, read, length] = of(&mut call.lent);
            let into = Recalling {
                d29: d29.number(),
                d30: d30.number(),
                read: read.number(),
                length: length.number(),
            };
            journals::recall_words(bytes, frame.bytes(), into)
        }
        other => unreachable!("{other:?}"),
    }
}

pub fn mend(call: &mut Call) -> u8 {
    let (at, searching) = (call.given[0] as u64, call.given[1] as u8);
    let [bytes, report, step, read, written] = of(&mut call.lent);
    let into = Mending {
        step: step.number(),
        read: read.number(),
        written: written.number(),
    };
    journals::mend(bytes.bytes(), at, searching, report.bytes(), into)
}
