//! Frames that are right, each field often at an end of its range.

use super::ends::{inside, one_of, Ends};
use rtcm2_model::frame::Frame;
use rtcm2_model::record::correction::Correction;
use rtcm2_model::record::general::{self, GeneralHead};
use rtcm2_model::record::general_null::{self, GeneralNull};
use rtcm2_model::record::list::List;
use rtcm2_model::record::{null, observation, position, system, text, System};
use rtcm2_model::rng::{Draw, Rng};
use rtcm2_model::{samples, tables};

/// The head of general corrections.
fn general_head(draw: &mut dyn Draw) -> GeneralHead {
    let head = samples::general_head(draw, 0);
    GeneralHead {
        ionosphere: draw.any(1) as u8,
        ..head
    }
}

/// A count from 1 to the most.
fn count(draw: &mut dyn Draw, most: usize) -> usize {
    draw.pulled(1, most as i64) as usize
}

/// A frame of this type, with a record if the type has one.
pub fn frame(rng: &mut Rng, type_number: u16) -> Frame {
    let header = samples::header(&mut Ends(rng), type_number);
    let made = match type_number {
        34 if rng.below(3) == 0 => null::make(&header, rng.below(2) as u8),
        3 | 32 => position::make(&header, &samples::position(&mut Ends(rng))),
        6 => null::make(&header, rng.below(2) as u8),
        18 | 19 => {
            let edition = samples::edition(rng);
            let draw = &mut Ends(rng);
            let entry = |()| samples::observation(draw, edition, type_number);
            let entries = [(); observation::MOST].map(entry);
            let count = count(draw, observation::MOST);
            let epoch = samples::epoch(draw);
            observation::make(edition, &header, &epoch, &entries, count)
        }
        42 if rng.below(3) == 0 => {
            let system = one_of(rng, &general::SYSTEMS);
            general_null::make(&header, &GeneralNull { n: 1, system })
        }
        41 | 42 => {
            let draw = &mut Ends(rng);
            let head = general_head(draw);
            let entries = [(); general::MOST].map(|()| samples::general(draw, head.ionosphere));
            let count = count(draw, general::most(head.ionosphere));
            general::make(&header, &head, &entries, count)
        }
        16 | 36 => {
            let draw = &mut Ends(rng);
            let count = count(draw, text::MOST);
            text::make(&header, &samples::characters(draw, type_number, count))
        }
        _ => Ok(match tables::of_type(type_number) {
            Some(list) => (list.drawn)(&mut Ends(rng), &header),
            None => any_words(rng, type_number),
        }),
    };
    made.expect("a right record")
}

/// A frame of this type with one to four corrections, now and then of one satellite
/// twice.
pub fn few_corrections(rng: &mut Rng, type_number: u16) -> Frame {
    let header = samples::header(&mut Ends(rng), type_number);
    let entries = differing_corrections(rng, system(type_number));
    let count = 1 + rng.place(4);
    Correction::make(&header, &entries, count).expect("a right record")
}

/// As many corrections as a frame can have, for different satellites, but now and then
/// one of them twice, next to each other or anywhere.
pub fn differing_corrections(rng: &mut Rng, system: System) -> [Correction; Correction::MOST] {
    let first = rng.below(32) as u8;
    let step = 1 + 2 * rng.below(16) as u8;
    let mut satellite = first;
    let mut entries = [(); Correction::MOST].map(|()| {
        satellite = (satellite + step) % 32;
        Correction {
            satellite: satellite + 1,
            ..Correction::drawn(&mut Ends(rng), system)
        }
    });
    if rng.below(4) == 0 {
        let (one, other) = match rng.below(3) {
            0 => (0, 1),
            1 => (rng.place(4), rng.place(4)),
            _ => (rng.place(Correction::MOST), rng.place(Correction::MOST)),
        };
        entries[one].satellite = entries[other].satellite;
    }
    entries
}

/// A frame of this type and any words, as many as N can say.
pub fn any_words(rng: &mut Rng, type_number: u16) -> Frame {
    let n = inside(rng, 0, 31) as u8;
    Frame {
        header: samples::header(&mut Ends(rng), type_number),
        ..samples::plain_frame(rng, type_number, n)
    }
}
