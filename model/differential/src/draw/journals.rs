//! Calls on records that keep the words, right or damaged, and on pieces of journals.

use super::ends::{around, inside, longer, one_of};
use super::{entries, frames, numbers, parts, room};
use crate::call::{Call, Function};
use crate::place::Place;
use rtcm2_model::frame::{CarriedBits, Frame};
use rtcm2_model::library::journals::REPORT_MAX;
use rtcm2_model::rng::Rng;
use rtcm2_model::word_journal::{data_of, keep, length_for, windows_in, windows_of, LONGEST};
use rtcm2_model::{journal, journals, samples};

/// A call of any function on such records.
pub fn call(rng: &mut Rng) -> Call {
    match rng.below(6) {
        0 => keep_words(rng),
        1 | 2 => recall_words(rng),
        _ => mend(rng),
    }
}

fn keep_words(rng: &mut Rng) -> Call {
    let frame = frame(rng);
    let record = frames::record(rng, &frame);
    let given = [(); 2].map(|()| frames::carried_bit(rng).into()).to_vec();
    let mut lent = vec![room(rng, length_for(frame.n.into()))];
    lent.extend(numbers(rng, 1));
    let read = vec![Place::starting(rng, &record)];
    parts(Function::KeepWords, given, read, lent)
}

fn recall_words(rng: &mut Rng) -> Call {
    let frame = frame(rng);
    let record = damaged_record(rng, &frame);
    let mut lent = vec![room(rng, journal::length_for(frame.n.into()))];
    lent.extend(numbers(rng, 4));
    let read = vec![Place::starting(rng, &record)];
    parts(Function::RecallWords, vec![], read, lent)
}

fn mend(rng: &mut Rng) -> Call {
    let given = vec![offset(rng), searching(rng)];
    let piece = piece(rng);
    let mut lent = vec![Place::starting(rng, &piece), room(rng, REPORT_MAX)];
    lent.extend(numbers(rng, 3));
    parts(Function::Mend, given, vec![], lent)
}

/// A byte offset: small, at a number of digits, just before 2^64, or any.
fn offset(rng: &mut Rng) -> i64 {
    let any = rng.draw();
    let number = match rng.below(4) {
        0 => rng.below(1000),
        1 => 10_u64.pow(rng.below(20) as u32).wrapping_sub(rng.below(3)),
        2 => u64::MAX - rng.below(140),
        _ => any >> rng.below(64),
    };
    number as i64
}

/// Whether the run searches: 0, or any other number.
fn searching(rng: &mut Rng) -> i64 {
    match rng.below(8) {
        0 => rng.byte().into(),
        1 => one_of(rng, &[2, 128, 255]),
        _ => rng.below(2) as i64,
    }
}

/// The bytes of a journal from a place on: mostly a record, damaged or not, and what
/// follows; seldom from within it, or any bytes.
fn piece(rng: &mut Rng) -> Vec<u8> {
    let mut piece = frame_record(rng);
    for _ in 0..one_of(rng, &[0, 1, 1, 1, 2, 3]) {
        journals::damage(rng, &mut piece);
    }
    match rng.below(12) {
        0..=2 => {
            let more = rng.place(140);
            piece.extend((0..more).map(|_| rng.byte()));
        }
        3 => {
            let count = rng.place(piece.len() + 1);
            piece.truncate(count);
            let size = longer(rng, count);
            piece.extend((count..size).map(|_| rng.byte()));
        }
        4 | 5 => piece.truncate(rng.place(piece.len() + 1)),
        6 => piece.extend(frame_record(rng)),
        7 => {
            piece.drain(..rng.place(piece.len() + 1).min(8));
        }
        8 => piece.truncate(rng.place(12)),
        _ => {}
    }
    piece
}

/// The record of any frame; of half of them one bit is turned in many words.
fn frame_record(rng: &mut Rng) -> Vec<u8> {
    let mut record = record(&frame(rng));
    if rng.bit() {
        for word in 0..(record.len() - 3) / 4 {
            if rng.below(4) > 0 {
                turn(&mut record, 32 * word + rng.place(32));
            }
        }
    }
    if rng.below(8) == 0 {
        damage(rng, &mut record);
    }
    record
}

/// A frame of any type, N and Z count, after any pair.
fn frame(rng: &mut Rng) -> Frame {
    let kind = inside(rng, 1, 64) as u16;
    let mut frame = match rng.below(4) {
        0 => samples::any_frame(rng),
        _ => entries::any_words(rng, kind),
    };
    if rng.below(6) == 0 {
        frame.header.z_count = inside(rng, 6000, 8191) as u16;
    }
    frame.after(pair(rng))
}

fn pair(rng: &mut Rng) -> CarriedBits {
    let [d29, d30] = [(); 2].map(|()| rng.below(2) as u8);
    CarriedBits { d29, d30 }
}

/// The record of a right frame.
fn record(frame: &Frame) -> Vec<u8> {
    let mut record = vec![0; LONGEST];
    let length = keep(frame, &mut record).expect("a right frame");
    record.truncate(length);
    record
}

/// The frame's record, sometimes with bytes behind it, mostly damaged.
fn damaged_record(rng: &mut Rng, frame: &Frame) -> Vec<u8> {
    let mut record = record(frame);
    let length = record.len();
    for _ in 0..one_of(rng, &[0, 0, 1, 1, 1, 2]) {
        damage(rng, &mut record);
    }
    let size = match rng.below(12) {
        0..=2 => length + rng.place(20),
        3 => {
            let count = rng.place(length);
            record.truncate(count);
            longer(rng, count)
        }
        _ => record.len(),
    };
    record.extend((record.len()..size).map(|_| rng.byte()));
    record
}

/// Turns bits of a record, gives a word another pair, gives its mark or N byte
/// another value, or cuts it.
fn damage(rng: &mut Rng, record: &mut Vec<u8>) {
    let length = record.len();
    if length < 11 {
        return;
    }
    let word = rng.place((length - 3) / 4);
    match rng.below(14) {
        0 => record.truncate(rng.place(length)),
        1 => record.truncate(rng.place(4)),
        2 => record.truncate(length - 1),
        3 => record[2] = around(rng, 0, 31, 8) as u8,
        4 => record[2] ^= one_of(rng, &[1, 32, 64, 128, 224]),
        5 => record[rng.place(2)] ^= 1 << rng.below(8),
        6 => record[1] = 0x32,
        7 => after_another_pair(rng, record, word),
        8 => record[3..].iter_mut().for_each(|byte| *byte = !*byte),
        9 => record[3 + rng.place(length - 3)] = rng.byte(),
        10 => turn(record, rng.place(64)),
        _ => {
            for _ in 0..1 + rng.place(4) {
                turn(record, 32 * word + rng.place(32));
            }
        }
    }
}

/// Turns a bit, counted from D29* of the first word on.
fn turn(record: &mut [u8], bit: usize) {
    record[3 + bit / 8] ^= 0x80 >> (bit % 8);
}

/// Gives a word the same data after another pair: its parity agrees, its carried bits
/// do not repeat the word before.
fn after_another_pair(rng: &mut Rng, record: &mut [u8], word: usize) {
    let data = data_of(windows_in(record)[word]);
    let window = windows_of(&[data], pair(rng))[0];
    record[3 + 4 * word..7 + 4 * word].copy_from_slice(&window.to_be_bytes());
}
