//! Types 18 and 19: raw observations, an epoch and 48 bits for each of 1 to 15
//! satellites. The two editions differ in what the first bit of a satellite means.

use super::fields::{code_of, satellite_of, Fields, Layer};
use super::{begin_making, begin_reading, Layout};
use crate::frame::{Frame, Header};
use crate::refusal::{refuse_if, Answer, Refusal};

/// Most satellites in a frame.
pub const MOST: usize = 15;

/// The last time in microseconds.
pub const LAST_TIME: u32 = 599_999;

/// Whose meaning the first bit of a satellite has.
#[derive(Clone, Copy, Debug, PartialEq, Eq)]
pub enum Edition {
    /// GOST R 53612-2009.
    Gost,
    /// BD 410002-2015.
    Bd,
}

/// The first bit of a satellite.
#[derive(Clone, Copy, Debug, PartialEq, Eq)]
pub enum Mark {
    /// GOST, type 18: 0 full, 1 half wavelength.
    Half(u8),
    /// GOST, type 19: kept as read.
    Reserved(u8),
    /// BD: 0 the last frame of the set, 1 more follow.
    More(u8),
}

impl Mark {
    /// What a bit means in this edition and type.
    pub fn of(edition: Edition, type_number: u16, bit: u8) -> Mark {
        match (edition, type_number) {
            (Edition::Gost, 18) => Mark::Half(bit),
            (Edition::Gost, _) => Mark::Reserved(bit),
            (Edition::Bd, _) => Mark::More(bit),
        }
    }

    /// The bit.
    pub fn bit(self) -> u8 {
        match self {
            Mark::Half(bit) | Mark::Reserved(bit) | Mark::More(bit) => bit,
        }
    }
}

/// What is measured, in whole counts of its step.
#[derive(Clone, Copy, Debug, PartialEq, Eq)]
pub enum Measured {
    /// Type 18: losses of continuity and the phase.
    Phase {
        /// 0 to 31.
        losses: u8,
        /// Every number of 32 bits.
        phase: i32,
    },
    /// Type 19: multipath and the range.
    Range {
        /// 0 to 15.
        multipath: u8,
        /// Every number of 32 bits.
        range: u32,
    },
}

/// The first word: frequency, smoothing and time.
#[derive(Clone, Copy, Debug, Default, PartialEq, Eq)]
pub struct Epoch {
    /// Two bits, every code kept.
    pub frequency: u8,
    /// Two bits: smoothing in type 19, reserved in type 18.
    pub smoothing: u8,
    /// Microseconds, 0 to 599,999.
    pub time: u32,
}

/// The observation of one satellite.
#[derive(Clone, Copy, Debug, PartialEq, Eq)]
pub struct Observation {
    /// The first bit, as its edition means it.
    pub mark: Mark,
    /// 0 C/A, 1 P.
    pub code: u8,
    /// 0 GPS, 1 GLONASS.
    pub system: u8,
    /// Satellite, 1 to 32, of either system.
    pub satellite: u8,
    /// Quality, three bits in type 18 and four in type 19.
    pub quality: u8,
    /// Phase or range.
    pub measured: Measured,
}

/// No observation: satellite 0.
pub const NONE: Observation = Observation {
    mark: Mark::More(0),
    code: 0,
    system: 0,
    satellite: 0,
    quality: 0,
    measured: Measured::Phase {
        losses: 0,
        phase: 0,
    },
};

/// Number of satellites, n of N = 2n + 1. Refuses with 5, 6, 7, 8.
pub fn count(frame: &Frame) -> Answer<usize> {
    begin_reading(frame, Layout::Observation)?;
    let fits = |count: &usize| 2 * count + 1 == usize::from(frame.n);
    (1..=MOST).find(fits).ok_or(Refusal::NDoesNotFit)
}

/// The epoch. Refuses with 5, 6, 7, 8, 10.
pub fn epoch(frame: &Frame) -> Answer<Epoch> {
    count(frame)?;
    let mut fields = Fields::from(frame, 0);
    let epoch = Epoch {
        frequency: fields.unsigned(2) as u8,
        smoothing: fields.unsigned(2) as u8,
        time: fields.unsigned(20),
    };
    refuse_if(epoch.time > LAST_TIME, Refusal::OutsideRange)?;
    Ok(epoch)
}

/// The satellite with this number, from 0, in the meaning of an edition. Refuses with
/// 5, 6, 7, 8, 9, 10.
pub fn entry(edition: Edition, frame: &Frame, number: usize) -> Answer<Observation> {
    refuse_if(number >= count(frame)?, Refusal::NoSuchEntry)?;
    epoch(frame)?;
    let type_number = frame.header.type_number;
    let mut fields = Fields::from(frame, 24 + 48 * number);
    let mark = Mark::of(edition, type_number, fields.unsigned(1) as u8);
    let (code, system) = (fields.unsigned(1) as u8, fields.unsigned(1) as u8);
    let satellite = satellite_of(fields.unsigned(5));
    let (quality, measured) = match type_number {
        18 => (
            fields.unsigned(3) as u8,
            Measured::Phase {
                losses: fields.unsigned(5) as u8,
                phase: fields.signed(32) as i32,
            },
        ),
        _ => (
            fields.unsigned(4) as u8,
            Measured::Range {
                multipath: fields.unsigned(4) as u8,
                range: fields.unsigned(32),
            },
        ),
    };
    Ok(Observation {
        mark,
        code,
        system,
        satellite,
        quality,
        measured,
    })
}

/// The frame of an epoch and the first `count` entries, meant by an edition. Refuses
/// with 5, 6, 7, 12, 10.
pub fn make(
    edition: Edition,
    header: &Header,
    epoch: &Epoch,
    entries: &[Observation; MOST],
    count: usize,
) -> Answer<Frame> {
    begin_making(header, Layout::Observation)?;
    refuse_if(!(1..=MOST).contains(&count), Refusal::EntryCount)?;
    let used = &entries[..count];
    let type_number = header.type_number;
    let right = epoch.frequency <= 3
        && epoch.smoothing <= 3
        && epoch.time <= LAST_TIME
        && used
            .iter()
            .all(|entry| in_range(entry, edition, type_number));
    refuse_if(!right, Refusal::OutsideRange)?;
    let mut layer = Layer::default();
    layer.put(i64::from(epoch.frequency), 2);
    layer.put(i64::from(epoch.smoothing), 2);
    layer.put(i64::from(epoch.time), 20);
    for entry in used {
        put_entry(&mut layer, entry);
    }
    Ok(layer.frame(header))
}

/// Lays out the 48 bits of a satellite.
fn put_entry(layer: &mut Layer, entry: &Observation) {
    layer.put(i64::from(entry.mark.bit()), 1);
    layer.put(i64::from(entry.code), 1);
    layer.put(i64::from(entry.system), 1);
    layer.put(code_of(entry.satellite), 5);
    match entry.measured {
        Measured::Phase { losses, phase } => {
            layer.put(i64::from(entry.quality), 3);
            layer.put(i64::from(losses), 5);
            layer.put(i64::from(phase), 32);
        }
        Measured::Range { multipath, range } => {
            layer.put(i64::from(entry.quality), 4);
            layer.put(i64::from(multipath), 4);
            layer.put(i64::from(range), 32);
        }
    }
}

/// Whether every field of an entry is inside its range, its mark of the edition and
/// what is measured of the type.
fn in_range(entry: &Observation, edition: Edition, type_number: u16) -> bool {
    let numbers = match (type_number, entry.measured) {
        (18, Measured::Phase { losses, .. }) => entry.quality <= 7 && losses <= 31,
        (19, Measured::Range { multipath, .. }) => entry.quality <= 15 && multipath <= 15,
        _ => false,
    };
    numbers
        && entry.mark == Mark::of(edition, type_number, entry.mark.bit())
        && entry.mark.bit() <= 1
        && entry.code <= 1
        && entry.system <= 1
        && (1..=32).contains(&entry.satellite)
}
