//! Calls that make a frame: headers of any numbers, entries and characters of any
//! bytes, any count of them.

use super::ends::{around, inside, longer, one_of, z_count, Ends};
use super::{entries, frames, headed, kind_with_record, numbers, parts, room};
use crate::call::{Call, Function};
use crate::place::Place;
use rtcm2_model::journal::length_for;
use rtcm2_model::library::generals::GENERAL_SIZE;
use rtcm2_model::library::observations::OBSERVATION_SIZE;
use rtcm2_model::record::correction::Correction;
use rtcm2_model::record::list::List;
use rtcm2_model::record::{general, system, text, System};
use rtcm2_model::rng::Rng;
use rtcm2_model::samples;
use rtcm2_model::tables::LISTS;

/// A call of a maker.
pub fn call(rng: &mut Rng) -> Call {
    let mut functions = vec![Function::Keep];
    functions.extend((0..LISTS.len()).map(Function::Make));
    functions.extend([
        Function::MakePosition,
        Function::MakeNull,
        Function::MakeText,
        Function::MakeObservations,
        Function::CutCorrections,
        Function::MakeGenerals,
        Function::MakeGeneralNull,
    ]);
    let function = one_of(rng, &functions);
    let mut given = head(function, rng);
    let mut read = vec![];
    let (mut size, mut ionosphere) = (0, 0);
    match function {
        Function::MakePosition => given.extend((0..3).map(|_| centimetres(rng))),
        Function::MakeNull => {
            let n = wanted_n(rng);
            size = n as usize;
            given.push(n);
        }
        Function::MakeObservations => {
            let edition = frames::edition(rng);
            given.push(edition);
            given.extend(headed::epoch(rng));
            let bytes = headed::observations(rng, given[0] as u16, edition);
            size = bytes.len();
            read.push(Place::starting(rng, &bytes));
        }
        Function::MakeGenerals => {
            given.extend(headed::general_head(rng));
            ionosphere = given[9] as u8;
            let bytes = headed::generals(rng, given[9]);
            size = bytes.len();
            read.push(Place::starting(rng, &bytes));
        }
        Function::MakeGeneralNull => {
            let n = wanted_n(rng);
            size = 1;
            given.push(if rng.bit() { 1 } else { n });
            given.push(headed::system(rng));
        }
        _ => {
            let kind = given[0] as u16;
            let bytes = bytes_for(function, kind, rng);
            size = bytes.len();
            read.push(Place::starting(rng, &bytes));
        }
    }
    let need = match function {
        Function::CutCorrections => cut_length(size / Correction::SIZE),
        Function::MakeGenerals => {
            let count = (size / GENERAL_SIZE).min(general::MOST);
            length_for(general::n_for(ionosphere, count).min(31))
        }
        _ => length_for(words(function, size)),
    };
    let mut lent = vec![room(rng, need)];
    lent.extend(numbers(rng, 1));
    parts(function, given, read, lent)
}

/// Bytes of the records that so many corrections are cut into.
fn cut_length(count: usize) -> usize {
    let last = count % 3;
    let whole = count.min(Correction::MOST) / 3 * length_for(5);
    match last {
        0 => whole,
        _ => whole + length_for(Correction::n_for(last)),
    }
}

/// How many words a frame of so many right bytes, or of this wanted N, has.
fn words(function: Function, size: usize) -> usize {
    let words = match function {
        Function::Keep => size / 3,
        Function::Make(place) => (LISTS[place].n_for)(size / LISTS[place].size),
        Function::MakeObservations => 2 * (size / OBSERVATION_SIZE) + 1,
        Function::MakePosition => 4,
        Function::MakeText => size.div_ceil(3),
        _ => size,
    };
    words.min(31)
}

/// A header's five numbers, mostly right ones.
fn head(function: Function, rng: &mut Rng) -> Vec<i64> {
    vec![
        kind(function, rng),
        around(rng, 0, 1023, 16),
        z_count(rng),
        around(rng, 0, 7, 8),
        around(rng, 0, 7, 8),
    ]
}

/// A type number: mostly one that is made, else one beside it, one that equals it
/// modulo 64, another that has a record, or any.
fn kind(function: Function, rng: &mut Rng) -> i64 {
    let right = match function {
        Function::Make(place) => one_of(rng, LISTS[place].types).into(),
        Function::MakePosition => one_of(rng, &[3, 32]),
        Function::MakeNull => one_of(rng, &[6, 34]),
        Function::MakeText => one_of(rng, &[16, 36]),
        Function::MakeObservations => one_of(rng, &[18, 19]),
        Function::MakeGenerals => one_of(rng, &[41, 42]),
        Function::MakeGeneralNull => match rng.below(16) {
            0 => 41,
            _ => 42,
        },
        Function::CutCorrections => match rng.below(16) {
            0 => one_of(rng, &[1, 31, 34]),
            _ => 9,
        },
        _ => inside(rng, 1, 64),
    };
    match rng.below(24) {
        0 => one_of(rng, &[right - 1, right + 1]),
        1 => (right + 64 * (1 + rng.below(3) as i64)) % 256,
        2 => kind_with_record(rng).into(),
        3 => around(rng, 1, 64, 8),
        _ => right,
    }
}

/// A coordinate, now and then at an end of its range.
fn centimetres(rng: &mut Rng) -> i64 {
    match rng.below(4) {
        0 => {
            let ends = [i32::MIN, -2_147_483_647, -1, 0, 1, 2_147_483_646, i32::MAX];
            one_of(rng, &ends).into()
        }
        _ => (rng.draw() as i32).into(),
    }
}

/// The N that a null frame is to have: mostly 0 or 1.
fn wanted_n(rng: &mut Rng) -> i64 {
    match rng.below(8) {
        0 => one_of(rng, &[2, 3, 31, 32, 255]),
        _ => around(rng, 0, 1, 8),
    }
}

/// The bytes that a maker of this type reads: right ones, some changed, or any.
fn bytes_for(function: Function, kind: u16, rng: &mut Rng) -> Vec<u8> {
    let (mut bytes, highest): (Vec<u8>, &[u8]) = match function {
        Function::Keep => {
            let count = 3 * count(rng, 31);
            (random_then_zeros(rng, count), &[255])
        }
        Function::Make(place) => {
            let (list, system) = (&LISTS[place], drawn_for(kind, rng));
            let row = |rng: &mut Rng| (list.row_drawn)(&mut Ends(rng), system);
            (rows(rng, list.most, row), (list.highest)(system))
        }
        Function::CutCorrections => {
            let count = count(rng, Correction::MOST);
            let system = drawn_for(kind, rng);
            let entries = entries::differing_corrections(rng, system);
            let rows: Vec<u8> = entries.iter().flat_map(Correction::row).collect();
            let all = rows.into_iter().cycle().take(Correction::SIZE * count);
            (all.collect(), Correction::highest(System::Gps))
        }
        _ => {
            let count = count(rng, text::MOST);
            let highest = if kind == 36 { &[191] } else { &[127] };
            (samples::characters(&mut Ends(rng), kind, count), highest)
        }
    };
    spoil(rng, &mut bytes, highest);
    bytes
}

/// The system of a type, now and then the other one.
fn drawn_for(kind: u16, rng: &mut Rng) -> System {
    match rng.below(12) {
        0 => one_of(rng, &[System::Gps, System::Glonass]),
        _ => system(kind),
    }
}

/// So many bytes, half of the time with zeros from a word on.
fn random_then_zeros(rng: &mut Rng, count: usize) -> Vec<u8> {
    let mut bytes: Vec<u8> = (0..count).map(|_| rng.byte()).collect();
    if rng.bit() {
        bytes
            .iter_mut()
            .skip(3 * rng.place(32))
            .for_each(|byte| *byte = 0);
    }
    bytes
}

/// Mostly a count from 1 to the most, else none, too many, or one that equals such a
/// count modulo 2^8 or 2^16.
fn count(rng: &mut Rng, most: usize) -> usize {
    match rng.below(12) {
        0 => one_of(rng, &[0, most, most + 1, most + 2]),
        1 => most + rng.place(100),
        2 => {
            let count = rng.place(most + 1);
            longer(rng, count)
        }
        _ => inside(rng, 1, most as i64) as usize,
    }
}

/// Rows of right entries; very many of them are a hundred again and again.
pub fn rows(rng: &mut Rng, most: usize, row: impl Fn(&mut Rng) -> Vec<u8>) -> Vec<u8> {
    let count = count(rng, most);
    let rows: Vec<Vec<u8>> = (0..count.min(100)).map(|_| row(rng)).collect();
    rows.iter().cycle().take(count).flatten().copied().collect()
}

/// Changes a byte or two, adds or takes some at the end, or makes all of them random.
pub fn spoil(rng: &mut Rng, bytes: &mut Vec<u8>, highest: &[u8]) {
    let size = bytes.len();
    let longer = match rng.below(20) {
        0..=2 => return change(rng, bytes, highest),
        3 => {
            change(rng, bytes, highest);
            return change(rng, bytes, highest);
        }
        4 => return bytes.iter_mut().for_each(|byte| *byte = rng.byte()),
        5 => return bytes.truncate(size.saturating_sub(1 + rng.place(4))),
        6 => size + rng.place(Correction::SIZE + OBSERVATION_SIZE),
        7 => longer(rng, size),
        _ => size,
    };
    let more = random_then_zeros(rng, longer - size);
    bytes.extend(more);
}

/// Gives one byte, if there is one, its highest value or one just past, either with
/// the top bit, 0, 127, 255, or any.
fn change(rng: &mut Rng, bytes: &mut [u8], highest: &[u8]) {
    if !bytes.is_empty() {
        let at = rng.place(bytes.len());
        let most = highest[at % highest.len()];
        let any = rng.byte();
        let past = most.wrapping_add(1);
        let values = [most, past, most | 128, past | 128, 0, 127, 255, any];
        bytes[at] = one_of(rng, &values);
    }
}
