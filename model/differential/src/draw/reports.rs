//! Reports of a season as bytes, of few and of 508 to 512 rows: counts around 2^32,
//! sums at the ends of their range and past them, bytes that are no report.

use super::ends::{inside, one_of};
use crate::place::Place;
use rtcm2_model::library::season::{report_bytes, REPORT_SIZE, ROW_SIZE};
use rtcm2_model::record::System;
use rtcm2_model::rng::Rng;
use rtcm2_model::season::{Key, Report, Row, MOST_ROWS};

/// How many keys there are to draw from: few, so that they come again, or so many that
/// they may not fit.
pub fn family(rng: &mut Rng) -> usize {
    match rng.below(6) {
        0 => 510 + rng.place(6),
        1 => 600,
        _ => 1 + rng.place(12),
    }
}

/// A key of a family.
pub fn key(number: usize) -> Key {
    let stations = [5, 0, 1023, 4, 512, 511, 1, 1022, 256, 2];
    Key {
        system: [System::Gps, System::Glonass][number % 2],
        station: stations[number / 64 % stations.len()],
        satellite: 1 + (number / 2 % 32) as u8,
    }
}

/// The bytes of a report of a family's keys, of any size, right or not.
pub fn report(rng: &mut Rng, family: usize) -> Place {
    let most = family.min(MOST_ROWS);
    let count = match rng.below(4) {
        0 => most - rng.place(3).min(most),
        1 => rng.place(3).min(most),
        _ => rng.place(most + 1),
    };
    let (first, step) = (rng.place(family), steps(rng, family));
    let row = |i: usize| row(rng, key((first + i * step) % family));
    let rows = (0..count).map(row).collect();
    let mut bytes = report_bytes(&Report { rows });
    if rng.below(4) == 0 {
        let unused = bytes.iter_mut().skip(4 + ROW_SIZE * count);
        unused.for_each(|byte| *byte = rng.byte());
    }
    if rng.below(4) == 0 {
        forge(rng, &mut bytes, count);
    }
    sized(rng, bytes)
}

/// A step by which one goes through all numbers below the count.
fn steps(rng: &mut Rng, count: usize) -> usize {
    match one_of(rng, &[1, 5, 7, 11, 13, 17]) {
        step if count.is_multiple_of(step) => 1,
        step => step,
    }
}

/// A row of this key, its sum often at an end of its range.
fn row(rng: &mut Rng, key: Key) -> Row {
    let (usable, stops) = (count(rng), count(rng));
    let (one, other) = (distance(rng), distance(rng));
    let (least, largest) = (one.min(other), one.max(other));
    let times = |end: i32| i64::from(usable) * i64::from(end);
    let within = times(least)..=times(largest);
    let sum = match rng.below(4) {
        0 => times(least),
        1 => times(largest),
        _ => {
            let mean = i64::from(usable) * inside(rng, least.into(), largest.into());
            let near = mean + inside(rng, -3, 3);
            near.clamp(*within.start(), *within.end())
        }
    };
    let absent = usable == 0;
    Row {
        key,
        usable,
        stops,
        extremes: (!absent).then_some((least, largest)),
        sum: if absent { 0 } else { sum },
    }
}

/// A count: none, few, just below 2^32, half of that, or any.
fn count(rng: &mut Rng) -> u32 {
    let few = rng.below(6) as u32;
    match rng.below(12) {
        0 => u32::MAX - few,
        1 => (1 << 31) - 1 + few % 3,
        2 => rng.draw() as u32,
        3..=5 => 0,
        6 => one_of(rng, &[255, 256, 65_535, 65_536]),
        _ => few,
    }
}

/// A PRC in mm, or any number of 32 bits.
fn distance(rng: &mut Rng) -> i32 {
    match rng.below(6) {
        0 => one_of(rng, &[i32::MIN, i32::MIN + 1, i32::MAX, -1, 0, 1]),
        1 => rng.draw() as i32,
        _ => 20 * inside(rng, -32767, 32767) as i32 * one_of(rng, &[1, 16]),
    }
}

/// Gives a report more rows than it can have, a row that is none, a key twice, a sum
/// past its range, or any bytes.
fn forge(rng: &mut Rng, bytes: &mut [u8], count: usize) {
    let at = 4 + ROW_SIZE * rng.place(count.max(1));
    let other = 4 + ROW_SIZE * rng.place(count.max(1));
    let any = rng.byte();
    // a full report is the one that has a row for each that is said to be in use
    let full = count == MOST_ROWS && rng.bit();
    match if full { 0 } else { rng.below(16) } {
        0 => bytes[..4].copy_from_slice(&u32::to_le_bytes(one_of(
            rng,
            &[513, 513, 514, 1024, 65_536 + 512, 1 << 31, u32::MAX],
        ))),
        1 => bytes[rng.place(4)] ^= 1 << rng.below(8),
        2 => bytes[at] = one_of(rng, &[2, 3, 128, 129, 254, 255]),
        3 => bytes[at + 12] = one_of(rng, &[0, 1, 2, 128, 254, 255]),
        4 => bytes[at + 13 + rng.place(8)] ^= 1 << rng.below(8),
        5 | 6 => bytes.copy_within(other..other + 4, at),
        7 => bytes[at + rng.place(4)] = any,
        8 => bytes[at + 4 + rng.place(8)] = any,
        9 => bytes[at + 21 + rng.place(8)] ^= 1 << rng.below(8),
        13 | 14 => sum_past_end(rng, &mut bytes[at..at + ROW_SIZE]),
        10 => bytes[at + 4..at + 8].fill(0),
        11 => bytes[at + 12..at + 29].fill(0),
        12 => bytes.iter_mut().for_each(|byte| *byte = rng.byte()),
        _ => bytes[at + rng.place(ROW_SIZE)] = any,
    }
}

/// Gives a row a sum just past an end of its range, or at the end.
fn sum_past_end(rng: &mut Rng, row: &mut [u8]) {
    let four = |at: usize| [0, 1, 2, 3].map(|i| row[at + i]);
    let end = i32::from_le_bytes(four(one_of(rng, &[13, 17])));
    let sum = i64::from(u32::from_le_bytes(four(4))) * i64::from(end);
    let near = sum + inside(rng, -1, 1);
    row[21..].copy_from_slice(&near.to_le_bytes());
}

/// A place for a report, mostly of its size.
fn sized(rng: &mut Rng, mut bytes: Vec<u8>) -> Place {
    let size = match rng.below(40) {
        0 => rng.place(REPORT_SIZE),
        1 => REPORT_SIZE - 1,
        2 => REPORT_SIZE + 1 + rng.place(40),
        3 => one_of(rng, &[0, 4, 33, REPORT_SIZE % 256, REPORT_SIZE + 256]),
        _ => REPORT_SIZE,
    };
    bytes.truncate(size);
    bytes.resize_with(size, || rng.byte());
    Place::starting(rng, &bytes)
}
