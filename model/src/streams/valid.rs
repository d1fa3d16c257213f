//! Correct streams: frames of all types back to back after the lead byte. Those of one
//! list layout alone are named in its file.

use super::Entry;
use crate::bits::Bits;
use crate::frame::{Frame, State};
use crate::record::correction::Correction;
use crate::record::general;
use crate::record::health::Health;
use crate::record::list::List;
use crate::rng::Rng;
use crate::samples;
use crate::tables::Table;

pub(super) const STREAMS: &[Entry] = &[
    ("valid-a", any),
    ("valid-b", any),
    ("valid-c", any),
    ("valid-d", any),
    ("valid-e", any),
    ("valid-f", any),
    ("valid-g", any),
    ("valid-h", any),
    ("positions", |rng| positions(rng, 3)),
    ("positions-32", |rng| positions(rng, 32)),
    ("nulls", |rng| nulls(rng, 6)),
    ("nulls-34", |rng| nulls(rng, 34)),
    ("texts", |rng| texts(rng, 16)),
    ("texts-36", |rng| texts(rng, 36)),
    ("observations-18", |rng| observations(rng, 18)),
    ("observations-19", |rng| observations(rng, 19)),
    ("generals-41", |rng| generals(rng, 41)),
    ("generals-42", |rng| generals(rng, 42)),
    ("generals-refused", generals_refused),
    ("nulls-42", nulls_42),
    ("systems-41", systems_41),
    ("other-system", other_system),
    ("plain-a", |rng| repeat(rng, 20, samples::other_frame)),
    ("plain-b", |rng| repeat(rng, 20, samples::other_frame)),
    ("plain-c", |rng| repeat(rng, 20, samples::other_frame)),
    ("every-type", every_type),
    ("type-64", |rng| of_type(rng, 64)),
    ("n-31", n_31),
    ("every-n", |rng| every_n(rng, 2)),
    ("every-n-6", |rng| every_n(rng, 6)),
    ("every-n-18", |rng| every_n(rng, 18)),
    ("every-n-34", |rng| every_n(rng, 34)),
    ("every-n-41", |rng| every_n_general(rng, 41, 0)),
    ("every-n-41-delays", |rng| every_n_general(rng, 41, 1)),
    ("every-n-42", |rng| every_n_general(rng, 42, 0)),
    ("every-n-42-delays", |rng| every_n_general(rng, 42, 1)),
    ("every-health", every_health),
    ("z-over-5999", z_over_5999),
];

/// The stream of these frames.
fn written(frames: &[Frame]) -> Vec<u8> {
    let mut bits = Bits::opened();
    bits.push_frames(frames);
    bits.to_bytes()
}

fn repeat(rng: &mut Rng, count: usize, frame: fn(&mut Rng) -> Frame) -> Vec<u8> {
    let frames: Vec<Frame> = (0..count).map(|_| frame(rng)).collect();
    written(&frames)
}

fn any(rng: &mut Rng) -> Vec<u8> {
    let count = 15 + rng.place(15);
    written(&samples::frames(rng, count))
}

/// Frames of a list layout, one of every count.
pub(super) fn list(list: &Table, rng: &mut Rng, type_number: u16) -> Vec<u8> {
    let make = |count| (list.sample)(rng, type_number, count);
    written(&(1..=list.most).map(make).collect::<Vec<Frame>>())
}

fn positions(rng: &mut Rng, type_number: u16) -> Vec<u8> {
    let make = |_| samples::position_frame(rng, type_number);
    written(&(0..20).map(make).collect::<Vec<Frame>>())
}

/// Null frames: without a word, with fill, with any word.
fn nulls(rng: &mut Rng, type_number: u16) -> Vec<u8> {
    let mut frames = Vec::new();
    for _ in 0..12 {
        frames.push(samples::null_frame(rng, type_number, 0));
        frames.push(samples::null_frame(rng, type_number, 1));
        frames.push(samples::plain_frame(rng, type_number, 1));
    }
    written(&frames)
}

fn texts(rng: &mut Rng, type_number: u16) -> Vec<u8> {
    let counts = [
        1, 2, 3, 4, 5, 6, 7, 13, 29, 30, 31, 44, 60, 61, 62, 87, 88, 89, 90,
    ];
    let make = |count| samples::text_frame(rng, type_number, count);
    written(&counts.into_iter().map(make).collect::<Vec<Frame>>())
}

/// Observations, each frame also under the other type number; the last one has a time
/// that is past its range.
fn observations(rng: &mut Rng, type_number: u16) -> Vec<u8> {
    let mut frames = Vec::new();
    for count in 1..=15 {
        let mut frame = samples::observation_frame(rng, type_number, count);
        frames.push(frame);
        frame.header.type_number = 37 - type_number;
        frames.push(frame);
    }
    for time in [599_999, 600_000, 1_048_575] {
        let mut frame = samples::observation_frame(rng, type_number, 1);
        frame.words[0] = time;
        frames.push(frame);
    }
    written(&frames)
}

/// General corrections of every count, without delays and with.
fn generals(rng: &mut Rng, type_number: u16) -> Vec<u8> {
    let mut frames = Vec::new();
    for ionosphere in [0, 1] {
        for count in 1..=general::most(ionosphere) {
            frames.push(samples::general_frame(rng, type_number, ionosphere, count));
        }
    }
    written(&frames)
}

/// Bits where general corrections of seven satellites have a satellite's number.
const SATELLITES: [[usize; 7]; 2] = [
    [13, 45, 77, 109, 141, 173, 205],
    [13, 57, 101, 145, 189, 233, 277],
];

/// General corrections with satellite 0 in one entry, or with any last word, so that
/// the fill is not the standard one and the last satellite differs.
fn generals_refused(rng: &mut Rng) -> Vec<u8> {
    let mut frames = Vec::new();
    for (ionosphere, starts) in [0, 1].into_iter().zip(SATELLITES) {
        for (i, start) in starts.into_iter().enumerate() {
            let type_number = 41 + (i % 2) as u16;
            let mut frame = samples::general_frame(rng, type_number, ionosphere, 7);
            let mut other = frame;
            other.words[usize::from(frame.n) - 1] = rng.word();
            for bit in start..start + 6 {
                frame.words[bit / 24] &= !(0x80_0000 >> (bit % 24));
            }
            frames.extend([frame, other]);
        }
    }
    written(&frames)
}

/// Null frames of type 42: with fill, with any word.
fn nulls_42(rng: &mut Rng) -> Vec<u8> {
    let mut frames = Vec::new();
    for i in 0..16 {
        frames.push(samples::general_null_frame(rng));
        frames.push(of_system(samples::plain_frame(rng, 42, 1), i));
        frames.push(samples::plain_frame(rng, 42, 1));
    }
    written(&frames)
}

/// The same frame with this system in its first four bits.
fn of_system(mut frame: Frame, system: u32) -> Frame {
    frame.words[0] = frame.words[0] & 0x0F_FFFF | system << 20;
    frame
}

/// Every system's number, under type 41 with N 1 to 3: 8, then 23, then 8 again.
fn systems_41(rng: &mut Rng) -> Vec<u8> {
    let mut frames = Vec::new();
    for system in 0..16 {
        for n in 1..=3 {
            frames.push(of_system(samples::plain_frame(rng, 41, n), system));
        }
    }
    written(&frames)
}

/// Any words of every N, but of a known system, without delays or with.
fn every_n_general(rng: &mut Rng, type_number: u16, ionosphere: u32) -> Vec<u8> {
    let make = |n: u8| {
        let mut frame = samples::plain_frame(rng, type_number, n);
        if n > 0 {
            let system = general::SYSTEMS[usize::from(n) % general::SYSTEMS.len()];
            frame = of_system(frame, system.into());
            frame.words[0] = frame.words[0] & !(1 << 11) | ionosphere << 11;
        }
        frame
    };
    written(&(0..=31).map(make).collect::<Vec<Frame>>())
}

/// Records of one system with the type number of the other: a tb from 120 on or a
/// letter is refused, all else is read with another meaning.
fn other_system(rng: &mut Rng) -> Vec<u8> {
    let mut frames = Vec::new();
    let mut push = |mut frame: Frame, type_number| {
        frame.header.type_number = type_number;
        frames.push(frame);
    };
    for count in 1..=4 {
        for (of, other) in [(1, 31), (9, 34), (31, 1), (34, 9)] {
            push(Correction::sample(rng, of, count), other);
        }
        for (of, other) in [(5, 33), (33, 5)] {
            push(Health::sample(rng, of, count), other);
        }
        for (of, other) in [(16, 36), (36, 16)] {
            push(samples::text_frame(rng, of, count), other);
        }
        push(samples::position_frame(rng, 3), 32);
        for (of, other) in [(34, 6), (6, 34)] {
            push(samples::null_frame(rng, of, count as u8 % 2), other);
        }
    }
    written(&frames)
}

fn every_type(rng: &mut Rng) -> Vec<u8> {
    let make = |type_number| {
        let n = rng.below(4) as u8;
        samples::plain_frame(rng, type_number, n)
    };
    written(&(1..=64).map(make).collect::<Vec<Frame>>())
}

fn of_type(rng: &mut Rng, type_number: u16) -> Vec<u8> {
    let make = |n| samples::plain_frame(rng, type_number, n);
    written(&[0, 1, 2, 7, 31].map(make))
}

fn n_31(rng: &mut Rng) -> Vec<u8> {
    let make = |type_number| samples::plain_frame(rng, type_number, 31);
    written(&[1, 3, 5, 6, 9, 16, 18, 64].map(make))
}

fn every_n(rng: &mut Rng, type_number: u16) -> Vec<u8> {
    let make = |n| samples::plain_frame(rng, type_number, n);
    written(&(0..=31).map(make).collect::<Vec<Frame>>())
}

fn every_health(rng: &mut Rng) -> Vec<u8> {
    let mut frames = Vec::new();
    for code in 0..8 {
        let mut three = [
            Correction::sample(rng, 1, 2),
            samples::any_null_frame(rng, 6),
            samples::text_frame(rng, 16, 8),
        ];
        for frame in &mut three {
            frame.header.state = State::of_code(code);
        }
        frames.extend(three);
    }
    written(&frames)
}

fn z_over_5999(rng: &mut Rng) -> Vec<u8> {
    let mut frames = samples::frames(rng, 24);
    for frame in &mut frames {
        frame.header.z_count = match rng.below(4) {
            0 => 5999,
            1 => 6000,
            2 => 8191,
            _ => 6000 + rng.below(2192) as u16,
        };
    }
    written(&frames)
}
