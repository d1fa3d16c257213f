//! Calls on reports of a season, and journals of both forms for them, with few keys or
//! very many.

use super::ends::{index, inside, one_of, Ends};
use super::reports::{family, key, report};
use super::{entries, numbers, parts, room};
use crate::call::{Call, Function};
use crate::place::Place;
use rtcm2_model::frame::{CarriedBits, Frame};
use rtcm2_model::library::season::{REPORT_SIZE, ROW_SIZE};
use rtcm2_model::record::correction::Correction;
use rtcm2_model::record::list::List;
use rtcm2_model::record::{system, System};
use rtcm2_model::rng::Rng;
use rtcm2_model::{journal, samples, word_journal};

/// A call of any function on reports.
pub fn call(rng: &mut Rng) -> Call {
    match rng.below(9) {
        0 => {
            let report = room(rng, REPORT_SIZE);
            parts(Function::SeasonStart, vec![], vec![], vec![report])
        }
        1..=4 => {
            let family = family(rng);
            let mut lent = vec![report(rng, family)];
            lent.extend(numbers(rng, 1));
            let journal = journal(rng, family);
            let read = vec![Place::starting(rng, &journal)];
            parts(Function::SeasonJournal, vec![], read, lent)
        }
        5..=6 => {
            let family = family(rng);
            let (first, second) = (report(rng, family), report(rng, family));
            parts(Function::SeasonAdd, vec![], vec![second], vec![first])
        }
        _ => {
            let family = family(rng);
            let mut report = report(rng, family);
            let used = match report.bytes() {
                [low, high, ..] => usize::from(u16::from_le_bytes([*low, *high])),
                _ => 0,
            };
            let given = vec![index(rng, used)];
            let row = room(rng, ROW_SIZE);
            parts(Function::SeasonRow, given, vec![report], vec![row])
        }
    }
}

/// The bytes of a journal of a family's keys: records of both forms, now and then
/// damaged, cut short, or with other bytes behind.
fn journal(rng: &mut Rng, family: usize) -> Vec<u8> {
    if family > 100 && rng.below(4) == 0 {
        return crowd(rng);
    }
    let mut bytes = Vec::new();
    let most = if family > 100 { 50 } else { 6 };
    let (mut from, step) = (rng.place(family), 1 + rng.place(18));
    for _ in 0..rng.place(most) {
        let frame = frame(rng, from % family);
        bytes.extend(record(rng, &frame));
        from += 2 * step;
    }
    for _ in 0..one_of(rng, &[0, 0, 0, 1, 2]) {
        if !bytes.is_empty() {
            let at = rng.place(bytes.len());
            bytes[at] ^= 1 << rng.below(8);
        }
    }
    match rng.below(8) {
        0 => bytes.truncate(rng.place(bytes.len() + 1)),
        1 => {
            let count = 1 + rng.place(12);
            bytes.extend((0..count).map(|_| rng.byte()));
        }
        2 => {
            let ends: [&[u8]; 6] = [
                &[0x52],
                &[0x52, 0x32],
                &[0x52, 0x34],
                &[0x52, 0x32, 32],
                &[0x52, 0x34, 0],
                &[0x52, 0x33, 0],
            ];
            bytes.extend(one_of(rng, &ends));
        }
        _ => {}
    }
    bytes
}

/// A journal of all keys of eight stations, 512 in all, or of one station more, now and
/// then with its first record turned into another or its last one gone.
fn crowd(rng: &mut Rng) -> Vec<u8> {
    let mut records: Vec<Vec<u8>> = Vec::new();
    for number in 0..32 + rng.place(2) {
        let from = 64 * (number / 4) + [0, 1, 32, 33][number % 4];
        let frame = corrections(rng, from, 16);
        records.push(record(rng, &frame));
    }
    match rng.below(4) {
        0 => {
            records.pop();
        }
        1 => {
            let frame = samples::any_frame(rng);
            records[0] = record(rng, &frame);
        }
        _ => {}
    }
    records.concat()
}

/// Mostly a frame of corrections of keys from a number on.
fn frame(rng: &mut Rng, from: usize) -> Frame {
    let kind = one_of(rng, &[1, 9, 31, 34]);
    let count = inside(rng, 1, 18) as usize;
    let mut frame = match rng.below(12) {
        0 => samples::any_frame(rng),
        1 => entries::any_words(rng, kind),
        _ => corrections(rng, from, count),
    };
    match rng.below(24) {
        0 => frame.header.z_count = one_of(rng, &[5999, 6000, 8191]),
        1 => frame.header.type_number = one_of(rng, &[1, 9, 31, 34, 5, 41]),
        _ => {}
    }
    frame
}

/// The record of a frame in either form.
fn record(rng: &mut Rng, frame: &Frame) -> Vec<u8> {
    let mut buffer = vec![0; word_journal::LONGEST];
    let [d29, d30] = [(); 2].map(|()| rng.below(2) as u8);
    let kept = match rng.below(2) {
        0 => journal::keep(frame, &mut buffer),
        _ => word_journal::keep(&frame.after(CarriedBits { d29, d30 }), &mut buffer),
    };
    buffer.truncate(kept.expect("a right frame"));
    buffer
}

/// A frame of so many corrections of keys from a number on, of one key alone now and
/// then, but where there are sixteen.
fn corrections(rng: &mut Rng, from: usize, count: usize) -> Frame {
    let first = key(from);
    let kind = match first.system {
        System::Gps => one_of(rng, &[1, 9]),
        System::Glonass => one_of(rng, &[31, 34]),
    };
    let step = if count == 16 {
        1
    } else {
        one_of(rng, &[1, 1, 1, 0])
    };
    let mut satellite = first.satellite - 1;
    let entries = [(); Correction::MOST].map(|()| {
        satellite = (satellite + step) % 32;
        Correction {
            satellite: satellite + 1,
            ..Correction::drawn(&mut Ends(rng), system(kind))
        }
    });
    let mut header = samples::header(rng, kind);
    header.station = first.station;
    Correction::make(&header, &entries, count).expect("a right record")
}
