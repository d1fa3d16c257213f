//! A frame made again from its record, and the numbers of the record.

use crate::frame::Frame;
use crate::record::general::{self, General};
use crate::record::observation::{self, Edition, Mark, Measured};
use crate::record::{general_null, layout, null, position, text, Layout};
use crate::refusal::{Answer, Refusal};
use crate::tables;

/// The frame made from a frame's record, read by an edition where there are two, or the
/// refusal of reading it; and its numbers, up to the entry that can't be read.
pub fn made_again(frame: &Frame, edition: Edition, numbers: &mut Vec<u64>) -> Answer<Frame> {
    let header = &frame.header;
    let layout = layout(header.type_number, frame.n);
    if let Some(list) = tables::of(layout) {
        return (list.again)(frame, numbers);
    }
    match layout {
        Layout::Observation => observations_again(frame, edition, numbers),
        Layout::Position => {
            let place = position::read(frame)?;
            numbers.extend([place.x, place.y, place.z].map(|axis| u64::from(axis as u32)));
            position::make(header, &place)
        }
        Layout::Null => {
            let n = null::read(frame)?;
            numbers.push(n.into());
            null::make(header, n)
        }
        Layout::Text => {
            let mut buffer = [0; text::MOST];
            let count = text::read(frame, &mut buffer)?;
            numbers.extend(buffer[..count].iter().copied().map(u64::from));
            text::make(header, &buffer[..count])
        }
        Layout::General => generals_again(frame, numbers),
        Layout::GeneralNull => {
            let null = general_null::read(frame)?;
            numbers.extend([null.n, null.system].map(u64::from));
            general_null::make(header, &null)
        }
        _ => Err(Refusal::AnotherType),
    }
}

fn observations_again(frame: &Frame, edition: Edition, numbers: &mut Vec<u64>) -> Answer<Frame> {
    let (count, epoch) = (observation::count(frame)?, observation::epoch(frame)?);
    numbers.extend([epoch.frequency, epoch.smoothing].map(u64::from));
    numbers.push(epoch.time.into());
    let mut entries = [observation::NONE; observation::MOST];
    for (i, entry) in entries.iter_mut().take(count).enumerate() {
        *entry = observation::entry(edition, frame, i)?;
        let which = match entry.mark {
            Mark::Half(_) => 0,
            Mark::Reserved(_) => 1,
            Mark::More(_) => 2,
        };
        numbers.extend([which, entry.mark.bit(), entry.code, entry.system].map(u64::from));
        numbers.extend([entry.satellite, entry.quality].map(u64::from));
        numbers.extend(match entry.measured {
            Measured::Phase { losses, phase } => [losses.into(), u64::from(phase as u32)],
            Measured::Range { multipath, range } => [multipath.into(), range.into()],
        });
    }
    observation::make(edition, &frame.header, &epoch, &entries, count)
}

fn generals_again(frame: &Frame, numbers: &mut Vec<u64>) -> Answer<Frame> {
    let (head, count) = (general::head(frame)?, general::count(frame)?);
    numbers.extend([head.system, head.signal, head.ephemeris].map(u64::from));
    numbers.extend([head.period, head.ionosphere].map(u64::from));
    let mut entries = [General::default(); general::MOST];
    for (i, entry) in entries.iter_mut().take(count).enumerate() {
        *entry = general::entry(frame, i)?;
        numbers.extend([entry.satellite, entry.udre, entry.iod].map(u64::from));
        numbers.extend([entry.prc as u16, entry.delay].map(u64::from));
    }
    general::make(&frame.header, &head, &entries, count)
}
