//! Calls that are given a frame: its journal record, right or damaged.

use super::ends::{around, index, inside, longer, one_of};
use super::{entries, kind_with_record, numbers, parts, room, CODES};
use crate::call::{Call, Function};
use crate::place::Place;
use rtcm2_model::frame::Frame;
use rtcm2_model::journal;
use rtcm2_model::library::generals::GENERAL_SIZE;
use rtcm2_model::library::observations::OBSERVATION_SIZE;
use rtcm2_model::record::correction::Correction;
use rtcm2_model::record::list::List;
use rtcm2_model::record::{general, observation, text, Layout};
use rtcm2_model::rng::Rng;
use rtcm2_model::samples;
use rtcm2_model::tables::LISTS;

/// A call of any function that is given a frame, or of `rtcm2_open`.
pub fn call(rng: &mut Rng) -> Call {
    let mut functions = vec![Function::Write, Function::Recall];
    functions
        .extend((0..LISTS.len()).flat_map(|place| [Function::Count(place), Function::At(place)]));
    functions.extend([
        Function::ReadPosition,
        Function::ReadNull,
        Function::ReadText,
        Function::CountObservations,
        Function::ReadEpoch,
        Function::ObservationAt,
        Function::CheckProfile,
        Function::CountGenerals,
        Function::ReadHead,
        Function::GeneralAt,
        Function::ReadGeneralNull,
    ]);
    match rng.below(40) {
        0 => {
            let line = room(rng, 1);
            parts(Function::Open, vec![], vec![], vec![line])
        }
        _ => call_on(one_of(rng, &functions), rng),
    }
}

/// A call of this function, which is given a frame.
fn call_on(function: Function, rng: &mut Rng) -> Call {
    let frame = frame_for(function, rng);
    let record = record(rng, &frame);
    let (mut given, mut lent) = (vec![], vec![]);
    match function {
        Function::Recall => lent = numbers(rng, 7),
        Function::Write => {
            lent = vec![carried(rng), carried(rng)];
            lent.push(room(rng, 5 * (usize::from(frame.n) + 2)));
            lent.extend(numbers(rng, 1));
        }
        Function::Count(_)
        | Function::ReadNull
        | Function::CountObservations
        | Function::CountGenerals => lent = numbers(rng, 1),
        Function::ReadHead => lent = numbers(rng, 5),
        Function::ReadGeneralNull => lent = numbers(rng, 2),
        Function::GeneralAt => {
            given.push(index(rng, general::count(&frame).unwrap_or(0)));
            lent.push(room(rng, GENERAL_SIZE));
        }
        Function::ReadEpoch => lent = numbers(rng, 3),
        Function::ObservationAt => {
            given.push(edition(rng));
            given.push(index(rng, observation::count(&frame).unwrap_or(0)));
            lent.push(room(rng, OBSERVATION_SIZE));
        }
        Function::At(place) => {
            given.push(index(rng, (LISTS[place].near)(&frame)));
            lent.push(room(rng, LISTS[place].size));
        }
        Function::ReadPosition => lent = numbers(rng, 3),
        Function::ReadText => {
            let need = text::read(&frame, &mut [0; text::MOST]).unwrap_or(0);
            lent = vec![room(rng, need)];
            lent.extend(numbers(rng, 1));
        }
        _ => {}
    }
    parts(function, given, vec![Place::starting(rng, &record)], lent)
}

/// A frame that the function reads, or nearly: of its type or another, with a
/// right record, any words or the record of another type, now and then with a Z
/// count past the hour.
fn frame_for(function: Function, rng: &mut Rng) -> Frame {
    let kind = kind_of(function, rng);
    let mut frame = match rng.below(12) {
        0 => samples::any_frame(rng),
        1 | 2 => entries::any_words(rng, kind),
        5..=8 if kind == 9 => entries::few_corrections(rng, 9),
        3 | 4 => of_another_type(function, rng),
        _ => entries::frame(rng, kind),
    };
    match function {
        Function::At(place) if LISTS[place].layout == Layout::Correction && rng.bit() => {
            any_issues(rng, &mut frame);
        }
        Function::ReadEpoch | Function::ObservationAt if rng.below(4) == 0 => {
            any_time(rng, &mut frame);
        }
        Function::CountGenerals
        | Function::ReadHead
        | Function::GeneralAt
        | Function::ReadGeneralNull => any_head(rng, &mut frame),
        _ => {}
    }
    match rng.below(16) {
        0 => frame.header.z_count = inside(rng, 6000, 8191) as u16,
        1 => frame.header.z_count = one_of(rng, &[5999, 6000]),
        _ => {}
    }
    frame
}

/// A frame of a type that the function reads, with the words of another such type or
/// of any that has a record: tb is then any, a text has letters where none are
/// allowed.
fn of_another_type(function: Function, rng: &mut Rng) -> Frame {
    let other = match rng.below(4) {
        0 => kind_with_record(rng),
        _ => kind_of(function, rng),
    };
    let mut frame = entries::frame(rng, other);
    frame.header.type_number = kind_of(function, rng);
    frame
}

/// Gives each correction of a frame other last eight bits: tb at an end of its range
/// or just past, with either change bit.
fn any_issues(rng: &mut Rng, frame: &mut Frame) {
    for i in 0..Correction::count(frame).unwrap_or(0) {
        let tb = one_of(rng, &[0, 1, 118, 119, 120, 121, 126, 127]);
        let last = 128 * rng.below(2) as u32 + tb;
        let byte = 5 * i + 4;
        let shift = 16 - 8 * (byte % 3);
        let word = &mut frame.words[byte / 3];
        *word = *word & !(0xFF << shift) | last << shift;
    }
}

/// Gives a frame's first word a time at the end of its range or past it.
fn any_time(rng: &mut Rng, frame: &mut Frame) {
    let time = one_of(rng, &[599_998, 599_999, 600_000, 600_001, 1_048_575]);
    if frame.n > 0 {
        frame.words[0] = frame.words[0] & 0xF0_0000 | time;
    }
}

/// Gives a frame now and then another system, its other layout, satellite 0 in one of
/// its entries, or another N.
fn any_head(rng: &mut Rng, frame: &mut Frame) {
    if frame.n == 0 {
        return;
    }
    let word = &mut frame.words[0];
    match rng.below(16) {
        0 => *word = *word & 0x0F_FFFF | (rng.below(16) as u32) << 20,
        1 => *word ^= 1 << 11,
        2 | 4 => no_satellite(rng, frame),
        3 => {
            let n = rng.place(32);
            frame.n = n as u8;
            frame.words[n..].fill(0);
        }
        _ => {}
    }
}

/// Gives one entry of general corrections, if there is one, satellite 0.
fn no_satellite(rng: &mut Rng, frame: &mut Frame) {
    let width = match general::head(frame) {
        Ok(head) => [32, 44][usize::from(head.ionosphere)],
        Err(_) => return,
    };
    let entry = rng.place(general::count(frame).unwrap_or(1));
    for bit in (13 + width * entry..).take(6) {
        frame.words[bit / 24] &= !(0x80_0000 >> (bit % 24));
    }
}

/// An edition, mostly 0 or 1.
pub fn edition(rng: &mut Rng) -> i64 {
    around(rng, 0, 1, 8)
}

/// A type number that the function reads; any for a function that reads all.
fn kind_of(function: Function, rng: &mut Rng) -> u16 {
    match function {
        Function::Count(place) | Function::At(place) => one_of(rng, LISTS[place].types),
        Function::ReadPosition => one_of(rng, &[3, 32]),
        Function::ReadNull => one_of(rng, &[6, 34]),
        Function::ReadText => one_of(rng, &[16, 36]),
        Function::CountObservations | Function::ReadEpoch | Function::ObservationAt => {
            one_of(rng, &[18, 19])
        }
        Function::CountGenerals | Function::ReadHead | Function::GeneralAt => {
            one_of(rng, &[41, 42])
        }
        Function::ReadGeneralNull => match rng.below(12) {
            0 => 41,
            _ => 42,
        },
        Function::CheckProfile => match rng.below(10) {
            0 => inside(rng, 1, 64) as u16,
            1 => kind_with_record(rng),
            2..=5 => 9,
            _ => one_of(rng, &[3, 5, 6, 16]),
        },
        _ => inside(rng, 1, 64) as u16,
    }
}

/// The frame's record, sometimes with bytes behind it, sometimes damaged.
pub fn record(rng: &mut Rng, frame: &Frame) -> Vec<u8> {
    let mut record = vec![0; 102];
    let length = journal::keep(frame, &mut record).expect("a right frame");
    record.truncate(length);
    let size = match rng.below(12) {
        0..=2 => length + rng.place(20),
        3 => {
            let count = rng.place(length);
            longer(rng, count)
        }
        _ => length,
    };
    record.extend((length..size).map(|_| rng.byte()));
    for _ in 0..one_of(rng, &[0, 0, 0, 0, 1, 1, 2]) {
        damage(rng, &mut record, length);
    }
    record
}

/// Cuts a record of this length anywhere, changes a byte or a bit of it, or puts in
/// what a record of its type must not hold.
fn damage(rng: &mut Rng, record: &mut Vec<u8>, length: usize) {
    let at = rng.place(length);
    match rng.below(12) {
        0 => record.truncate(at),
        1 => record.truncate(rng.place(4)),
        2 => record.truncate(length - 1),
        3 => put(record, at, &[rng.byte()]),
        4 => put(record, rng.place(9), &[rng.byte()]),
        5 => change(record, rng.place(9), 1 << rng.below(8)),
        6 => put(record, 2, &[around(rng, 0, 31, 8) as u8]),
        7 => change(record, 2, one_of(rng, &[32, 64, 128, 224])),
        8 => put(record, 9 + 4 * rng.place(3), &[0x80, 0, 0, 0]),
        9 => put(record, 9 + rng.place(93), &[one_of(rng, &CODES)]),
        10 => {
            let from = length.saturating_sub(1 + rng.place(5));
            let count = rng.place(6).min(length - from);
            put(record, from, &vec![0; count]);
        }
        _ => record.iter_mut().for_each(|byte| *byte = rng.byte()),
    }
}

/// Puts bytes into a record, where it has room for them.
fn put(record: &mut [u8], at: usize, bytes: &[u8]) {
    if let Some(place) = record.get_mut(at..at + bytes.len()) {
        place.copy_from_slice(bytes);
    }
}

/// Turns over bits of a record's byte, where it has one.
fn change(record: &mut [u8], at: usize, bits: u8) {
    if let Some(byte) = record.get_mut(at) {
        *byte ^= bits;
    }
}

/// A lent carried bit.
fn carried(rng: &mut Rng) -> Place {
    let mut place = Place::number_drawn(rng);
    *place.number::<u8>() = carried_bit(rng);
    place
}

/// A carried bit, mostly 0 or 1.
pub fn carried_bit(rng: &mut Rng) -> u8 {
    match rng.below(12) {
        0 => one_of(rng, &[2, 3, 128, 254, 255]),
        _ => rng.below(2) as u8,
    }
}
