//! Random headers, records and frames, all correct, for streams and tests.

use crate::frame::{CarriedBits, Frame, Header, State, MOST_WORDS};
use crate::record::general::{self, General, GeneralHead};
use crate::record::general_null::{self, GeneralNull};
use crate::record::observation::{self, Edition, Epoch, Mark, Measured, Observation};
use crate::record::position::{self, Position};
use crate::record::{null, text};
use crate::rng::{Draw, Rng};
use crate::tables;

/// A header of this type with a Z count inside the hour.
pub fn header(draw: &mut dyn Draw, type_number: u16) -> Header {
    Header {
        type_number,
        station: draw.any(1023) as u16,
        z_count: draw.any(5999) as u16,
        sequence: draw.any(7) as u8,
        state: State::of_code(draw.any(7) as u32),
    }
}

/// Either edition.
pub fn edition(draw: &mut dyn Draw) -> Edition {
    [Edition::Gost, Edition::Bd][draw.place(2)]
}

/// The epoch of a frame of type 18 or 19.
pub fn epoch(draw: &mut dyn Draw) -> Epoch {
    Epoch {
        frequency: draw.any(3) as u8,
        smoothing: draw.any(3) as u8,
        time: draw.pulled(0, observation::LAST_TIME.into()) as u32,
    }
}

/// One satellite's observation.
pub fn observation(draw: &mut dyn Draw, edition: Edition, type_number: u16) -> Observation {
    let bit = draw.any(1) as u8;
    Observation {
        mark: Mark::of(edition, type_number, bit),
        code: draw.any(1) as u8,
        system: draw.any(1) as u8,
        satellite: draw.pulled(1, 32) as u8,
        quality: draw.pulled(0, if type_number == 18 { 7 } else { 15 }) as u8,
        measured: match type_number {
            18 => Measured::Phase {
                losses: draw.pulled(0, 31) as u8,
                phase: draw.pulled(i32::MIN.into(), i32::MAX.into()) as i32,
            },
            _ => Measured::Range {
                multipath: draw.pulled(0, 15) as u8,
                range: draw.pulled(0, u32::MAX.into()) as u32,
            },
        },
    }
}

/// The head of a frame of type 41 or 42, with delays or without.
pub fn general_head(draw: &mut dyn Draw, ionosphere: u8) -> GeneralHead {
    GeneralHead {
        system: general::SYSTEMS[draw.place(general::SYSTEMS.len())],
        signal: draw.any(15) as u8,
        ephemeris: draw.any(3) as u8,
        period: draw.any(3) as u8,
        ionosphere,
    }
}

/// One satellite's general correction, with a delay or without.
pub fn general(draw: &mut dyn Draw, ionosphere: u8) -> General {
    General {
        satellite: draw.pulled(1, 63) as u8,
        udre: draw.pulled(0, 15) as u8,
        iod: draw.any(255) as u8,
        prc: draw.pulled(-8192, 8191) as i16,
        delay: match ionosphere {
            0 => 0,
            _ => draw.pulled(0, 4095) as u16,
        },
    }
}

/// A position.
pub fn position(draw: &mut dyn Draw) -> Position {
    let mut centimetres = || draw.pulled(-2_147_483_647, 2_147_483_647) as i32;
    Position {
        x: centimetres(),
        y: centimetres(),
        z: centimetres(),
    }
}

/// A text of this many characters, for a frame of type 16 or 36.
pub fn characters(draw: &mut dyn Draw, type_number: u16, count: usize) -> Vec<u8> {
    let last = text::last_code(type_number).into();
    (0..count).map(|_| draw.pulled(1, last) as u8).collect()
}

/// A frame of type 3 or 32.
pub fn position_frame(rng: &mut Rng, type_number: u16) -> Frame {
    let header = header(rng, type_number);
    position::make(&header, &position(rng)).expect("a correct record")
}

/// A null frame of type 6 or 34 with this N, 0 or 1.
pub fn null_frame(rng: &mut Rng, type_number: u16, n: u8) -> Frame {
    null::make(&header(rng, type_number), n).expect("a correct record")
}

/// A null frame of type 6 or 34 with either N.
pub fn any_null_frame(rng: &mut Rng, type_number: u16) -> Frame {
    let n = rng.below(2) as u8;
    null_frame(rng, type_number, n)
}

/// A frame of type 16 or 36 with this many characters.
pub fn text_frame(rng: &mut Rng, type_number: u16, count: usize) -> Frame {
    let header = header(rng, type_number);
    let characters = characters(rng, type_number, count);
    text::make(&header, &characters).expect("a correct record")
}

/// A frame of type 18 or 19 with this many satellites.
pub fn observation_frame(rng: &mut Rng, type_number: u16, count: usize) -> Frame {
    let edition = edition(rng);
    let mut entries = [observation::NONE; observation::MOST];
    entries.fill_with(|| observation(rng, edition, type_number));
    let (header, epoch) = (header(rng, type_number), epoch(rng));
    observation::make(edition, &header, &epoch, &entries, count).expect("a correct record")
}

/// A frame of type 41 or 42 with this many satellites, with delays or without.
pub fn general_frame(rng: &mut Rng, type_number: u16, ionosphere: u8, count: usize) -> Frame {
    let mut entries = [General::default(); general::MOST];
    entries.fill_with(|| general(rng, ionosphere));
    let (header, head) = (header(rng, type_number), general_head(rng, ionosphere));
    general::make(&header, &head, &entries, count).expect("a correct record")
}

/// A null frame of type 42.
pub fn general_null_frame(rng: &mut Rng) -> Frame {
    let system = general::SYSTEMS[rng.place(general::SYSTEMS.len())];
    let null = GeneralNull { n: 1, system };
    general_null::make(&header(rng, 42), &null).expect("a correct record")
}

/// A frame of any type and N with random data words.
pub fn plain_frame(rng: &mut Rng, type_number: u16, n: u8) -> Frame {
    let mut words = [0; MOST_WORDS];
    words[..usize::from(n)].fill_with(|| rng.word());
    Frame {
        header: header(rng, type_number),
        carried: CarriedBits::ZEROS,
        n,
        words,
    }
}

/// A frame of any words, of one of twelve types that have no layout in the streams: like
/// those of `record_frame` they stay, so that a new layout changes no stream.
pub fn other_frame(rng: &mut Rng) -> Frame {
    let types = [2, 4, 7, 8, 10, 17, 30, 35, 37, 59, 63, 64];
    let type_number = types[rng.place(types.len())];
    let n = rng.below(32) as u8;
    plain_frame(rng, type_number, n)
}

/// A frame whose record can be read, of any of fifteen types; types 34 and 42 have two
/// layouts, half of their frames are null frames.
pub fn record_frame(rng: &mut Rng) -> Frame {
    let types = [
        1, 3, 5, 6, 9, 16, 18, 19, 31, 32, 33, 34, 34, 36, 41, 42, 42,
    ];
    let type_number = types[rng.place(types.len())];
    match type_number {
        3 | 32 => position_frame(rng, type_number),
        6 => any_null_frame(rng, 6),
        16 | 36 => {
            let count = 1 + rng.place(text::MOST);
            text_frame(rng, type_number, count)
        }
        18 | 19 => {
            let count = 1 + rng.place(observation::MOST);
            observation_frame(rng, type_number, count)
        }
        34 if rng.bit() => any_null_frame(rng, 34),
        42 if rng.bit() => general_null_frame(rng),
        41 | 42 => {
            let ionosphere = rng.below(2) as u8;
            let count = 1 + rng.place(general::most(ionosphere));
            general_frame(rng, type_number, ionosphere, count)
        }
        _ => {
            let list = tables::of_type(type_number).expect("a list layout");
            let count = 1 + rng.place(list.most);
            (list.sample)(rng, type_number, count)
        }
    }
}

/// Any correct frame, one in seven without a layout of its own.
pub fn any_frame(rng: &mut Rng) -> Frame {
    match rng.below(7) {
        0 => other_frame(rng),
        _ => record_frame(rng),
    }
}

/// Frames to be sent back to back.
pub fn frames(rng: &mut Rng, count: usize) -> Vec<Frame> {
    (0..count).map(|_| any_frame(rng)).collect()
}
