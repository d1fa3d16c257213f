//! The small-beacon profile: types 3, 5, 6, 9 and 16, with at most three satellites
//! in type 9 and none twice in a frame. A checker of frames, and a sender's side that
//! cuts a list of corrections into such frames.

use crate::frame::{check_frame, check_header, Frame, Header, Z_COUNTS};
use crate::record::correction::Correction;
use crate::record::health::Health;
use crate::record::list::List;
use crate::record::{null, position, text};
use crate::refusal::{refuse_if, Answer, Refusal};

/// The types of the profile.
pub const TYPES: [u16; 5] = [3, 5, 6, 9, 16];

/// Most satellites in a frame of type 9.
pub const MOST_SATELLITES: usize = 3;

/// Whether one of these is there twice.
fn has_one_twice(satellites: &[u8]) -> bool {
    let again = |i: usize| satellites[..i].contains(&satellites[i]);
    (0..satellites.len()).any(again)
}

/// Checks a frame. Refuses with 5, 7, 20, 8, 10 or 11, 21, 22.
pub fn check(frame: &Frame) -> Answer<()> {
    check_frame(frame)?;
    refuse_if(frame.header.z_count >= Z_COUNTS, Refusal::ZCount)?;
    let kind = frame.header.type_number;
    refuse_if(!TYPES.contains(&kind), Refusal::OutsideProfile)?;
    match kind {
        3 => position::read(frame).map(|_| ()),
        5 => (0..Health::count(frame)?).try_for_each(|i| Health::entry(frame, i).map(|_| ())),
        6 => null::read(frame).map(|_| ()),
        16 => text::read(frame, &mut [0; text::MOST]).map(|_| ()),
        _ => check_corrections(frame),
    }
}

/// Checks a frame of type 9. Refuses with 8, 10, 21, 22.
fn check_corrections(frame: &Frame) -> Answer<()> {
    let mut satellites = Vec::new();
    for i in 0..Correction::count(frame)? {
        satellites.push(Correction::entry(frame, i)?.satellite);
    }
    let too_many = satellites.len() > MOST_SATELLITES;
    refuse_if(too_many, Refusal::TooManySatellites)?;
    refuse_if(has_one_twice(&satellites), Refusal::SatelliteTwice)
}

/// Cuts the first `count` corrections into frames of type 9, three to a frame until
/// the last; the sequence rises by one modulo 8 from the header's. Refuses with 5, 6,
/// 7, 12, 10, 22.
pub fn cut(header: &Header, entries: &[Correction], count: usize) -> Answer<Vec<Frame>> {
    check_header(header)?;
    refuse_if(header.type_number != 9, Refusal::AnotherType)?;
    // 7, 12 and 10 are those of a frame of the whole list
    Correction::make(header, entries, count)?;
    let list = &entries[..count];
    let satellites: Vec<u8> = list.iter().map(|entry| entry.satellite).collect();
    refuse_if(has_one_twice(&satellites), Refusal::SatelliteTwice)?;
    let frame = |(i, part): (usize, &[Correction])| {
        let mut three = [Correction::default(); Correction::MOST];
        three[..part.len()].copy_from_slice(part);
        let header = Header {
            sequence: ((usize::from(header.sequence) + i) % 8) as u8,
            ..*header
        };
        Correction::make(&header, &three, part.len())
    };
    list.chunks(MOST_SATELLITES)
        .enumerate()
        .map(frame)
        .collect()
}
