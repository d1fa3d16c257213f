//! Heads and rows of frames that have a head, observations and general corrections,
//! mostly right ones.

use super::ends::{around, one_of, Ends};
use super::makers::{rows, spoil};
use rtcm2_model::library::generals::{general_row, GENERAL_SIZE};
use rtcm2_model::library::observations::observation_row;
use rtcm2_model::record::general;
use rtcm2_model::record::observation::{self, Edition};
use rtcm2_model::rng::Rng;
use rtcm2_model::samples;

/// An epoch's three numbers, mostly right ones.
pub fn epoch(rng: &mut Rng) -> [i64; 3] {
    let time = around(rng, 0, observation::LAST_TIME.into(), 32);
    [around(rng, 0, 3, 8), around(rng, 0, 3, 8), time]
}

/// Rows of observations of a type and an edition, now and then of another one of
/// either.
pub fn observations(rng: &mut Rng, kind: u16, edition: i64) -> Vec<u8> {
    let kind = match rng.below(16) {
        0 => one_of(rng, &[18, 19]),
        _ => kind,
    };
    let edition = match (rng.below(16), edition) {
        (0, _) => one_of(rng, &[Edition::Gost, Edition::Bd]),
        (_, 0) => Edition::Gost,
        _ => Edition::Bd,
    };
    let row = |rng: &mut Rng| {
        let entry = samples::observation(&mut Ends(rng), edition, kind);
        observation_row(&entry).to_vec()
    };
    let mut bytes = rows(rng, observation::MOST, row);
    let highest = match kind {
        18 => &[2, 1, 1, 1, 32, 7, 31, 1, 255, 255, 255, 255],
        _ => &[2, 1, 1, 1, 32, 15, 15, 1, 255, 255, 255, 255],
    };
    spoil(rng, &mut bytes, highest);
    bytes
}

/// The five numbers of a head of general corrections, mostly right ones.
pub fn general_head(rng: &mut Rng) -> [i64; 5] {
    [
        system(rng),
        around(rng, 0, 15, 8),
        around(rng, 0, 3, 8),
        around(rng, 0, 3, 8),
        around(rng, 0, 1, 8),
    ]
}

/// A system's number, mostly of one that has the layout.
pub fn system(rng: &mut Rng) -> i64 {
    let right = i64::from(one_of(rng, &general::SYSTEMS));
    match rng.below(16) {
        0 => one_of(rng, &[0, 3, 4, 7, 15]),
        1 => right + 16 * one_of(rng, &[1, 2, 15]),
        _ => right,
    }
}

/// Rows of general corrections with delays or without, now and then of the other kind;
/// now and then with a number just past its range.
pub fn generals(rng: &mut Rng, ionosphere: i64) -> Vec<u8> {
    let ionosphere = match rng.below(16) {
        0 => 1,
        _ => ionosphere as u8,
    };
    let row = |rng: &mut Rng| general_row(&samples::general(&mut Ends(rng), ionosphere)).to_vec();
    let mut bytes = rows(rng, general::most(ionosphere), row);
    if let (0, true) = (rng.below(6), bytes.len() >= GENERAL_SIZE) {
        let at = GENERAL_SIZE * rng.place(bytes.len() / GENERAL_SIZE);
        let row = &mut bytes[at..at + GENERAL_SIZE];
        match rng.below(4) {
            0 => row[0] = one_of(rng, &[0, 63, 64, 65, 127, 128, 192, 255]),
            1 => {
                let prc: i16 = one_of(rng, &[-8193, -8192, 8191, 8192, 16_383, -16_384, i16::MIN]);
                row[3..5].copy_from_slice(&prc.to_le_bytes());
            }
            _ => {
                let delay: u16 = one_of(rng, &[0, 1, 4094, 4095, 4096, 8191, 65_535]);
                row[5..].copy_from_slice(&delay.to_le_bytes());
            }
        }
    }
    spoil(rng, &mut bytes, &[63, 15, 255, 255, 31, 255, 15]);
    bytes
}
