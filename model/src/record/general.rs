//! Types 41 and 42: general corrections of one system's signal, a head of 13 bits and,
//! for each satellite, 32 bits or 44 with the delay of the ionosphere.

use super::fields::{alternates, data_bits, Fields, Layer};
use super::{begin_making, begin_reading, Layout};
use crate::frame::{Frame, Header, MOST_WORDS};
use crate::refusal::{refuse_if, Answer, Refusal};

/// Most satellites in a frame, without delays.
pub const MOST: usize = 22;

/// The systems with this layout: GPS, GLONASS, QZSS and BDS.
pub const SYSTEMS: [u8; 4] = [1, 2, 5, 6];

/// The fill, once per 8 bits, a one first wherever it starts.
pub const FILL: u8 = 0b1010_1010;

/// Bits of the head.
const HEAD_WIDTH: usize = 13;

/// The head, numbers as sent.
#[derive(Clone, Copy, Debug, Default, PartialEq, Eq)]
pub struct GeneralHead {
    /// System, four bits.
    pub system: u8,
    /// Signal, 0 to 15, every code kept.
    pub signal: u8,
    /// Ephemeris type, 0 to 3, every code kept.
    pub ephemeris: u8,
    /// How long the corrections may be used, 0 to 3.
    pub period: u8,
    /// 1 where every satellite has its delay, else 0.
    pub ionosphere: u8,
}

/// The correction of one satellite, numbers as sent.
#[derive(Clone, Copy, Debug, Default, PartialEq, Eq)]
pub struct General {
    /// Satellite, 1 to 63.
    pub satellite: u8,
    /// UDRE, 0 to 15.
    pub udre: u8,
    /// IOD, every code kept.
    pub iod: u8,
    /// PRC, fourteen bits; -8192 means stop.
    pub prc: i16,
    /// Delay, 0 to 4095, which means don't use; 0 in a frame without delays.
    pub delay: u16,
}

/// Bits of a delay.
fn delay_width(ionosphere: u8) -> usize {
    match ionosphere {
        0 => 0,
        _ => 12,
    }
}

/// N for a count of satellites: what holds the head and so many parts.
pub fn n_for(ionosphere: u8, count: usize) -> usize {
    (HEAD_WIDTH + (32 + delay_width(ionosphere)) * count).div_ceil(24)
}

/// Most satellites of a frame with delays or without: what its words have room for.
pub fn most(ionosphere: u8) -> usize {
    let fit = |count: &usize| n_for(ionosphere, *count) <= MOST_WORDS;
    (1..=MOST).rev().find(fit).unwrap_or(0)
}

/// The head and the number of satellites. Refuses with 5, 6, 7, 8, 23, 8.
fn begin(frame: &Frame) -> Answer<(GeneralHead, usize)> {
    begin_reading(frame, Layout::General)?;
    let none = frame.n == 0 || frame.n == 1 && frame.header.type_number == 41;
    refuse_if(none, Refusal::NDoesNotFit)?;
    let mut fields = Fields::from(frame, 0);
    let head = GeneralHead {
        system: fields.unsigned(4) as u8,
        signal: fields.unsigned(4) as u8,
        ephemeris: fields.unsigned(2) as u8,
        period: fields.unsigned(2) as u8,
        ionosphere: fields.unsigned(1) as u8,
    };
    refuse_if(!SYSTEMS.contains(&head.system), Refusal::OtherSystem)?;
    let fits = |count: &usize| n_for(head.ionosphere, *count) == usize::from(frame.n);
    let count = (1..=MOST).find(fits).ok_or(Refusal::NDoesNotFit)?;
    Ok((head, count))
}

/// Number of satellites. Refuses with 5, 6, 7, 8, 23, 8.
pub fn count(frame: &Frame) -> Answer<usize> {
    begin(frame).map(|(_, count)| count)
}

/// The head. Refuses with 5, 6, 7, 8, 23, 8.
pub fn head(frame: &Frame) -> Answer<GeneralHead> {
    begin(frame).map(|(head, _)| head)
}

/// The satellite with this number, from 0. Refuses with 5, 6, 7, 8, 23, 8, 9, 10.
pub fn entry(frame: &Frame, number: usize) -> Answer<General> {
    let (head, count) = begin(frame)?;
    refuse_if(number >= count, Refusal::NoSuchEntry)?;
    let delay = delay_width(head.ionosphere);
    let mut fields = Fields::from(frame, HEAD_WIDTH + (32 + delay) * number);
    let entry = General {
        satellite: fields.unsigned(6) as u8,
        udre: fields.unsigned(4) as u8,
        iod: fields.unsigned(8) as u8,
        prc: fields.signed(14) as i16,
        delay: fields.unsigned(delay) as u16,
    };
    refuse_if(entry.satellite == 0, Refusal::OutsideRange)?;
    Ok(entry)
}

/// The frame of a head and the first `count` entries. Refuses with 5, 6, 7, 23, 12, 10.
pub fn make(
    header: &Header,
    head: &GeneralHead,
    entries: &[General; MOST],
    count: usize,
) -> Answer<Frame> {
    begin_making(header, Layout::General)?;
    refuse_if(!SYSTEMS.contains(&head.system), Refusal::OtherSystem)?;
    let counts = 1..=most(head.ionosphere);
    refuse_if(!counts.contains(&count), Refusal::EntryCount)?;
    let used = &entries[..count];
    let right = head.signal <= 15
        && head.ephemeris <= 3
        && head.period <= 3
        && head.ionosphere <= 1
        && used.iter().all(|entry| in_range(entry, head.ionosphere));
    refuse_if(!right, Refusal::OutsideRange)?;
    let mut layer = Layer::default();
    layer.put(i64::from(head.system), 4);
    layer.put(i64::from(head.signal), 4);
    layer.put(i64::from(head.ephemeris), 2);
    layer.put(i64::from(head.period), 2);
    layer.put(i64::from(head.ionosphere), 1);
    for entry in used {
        layer.put(i64::from(entry.satellite), 6);
        layer.put(i64::from(entry.udre), 4);
        layer.put(i64::from(entry.iod), 8);
        layer.put(i64::from(entry.prc), 14);
        layer.put(i64::from(entry.delay), delay_width(head.ionosphere));
    }
    layer.fill(FILL);
    Ok(layer.frame(header))
}

/// Whether every field of an entry is inside its range; without delays the only one is
/// 0.
fn in_range(entry: &General, ionosphere: u8) -> bool {
    (1..=63).contains(&entry.satellite)
        && entry.udre <= 15
        && (-8192..=8191).contains(&entry.prc)
        && entry.delay < 1 << delay_width(ionosphere)
}

/// Whether the bits after the last entry are standard fill. Refuses as `count`.
pub fn fill_is_standard(frame: &Frame) -> Answer<bool> {
    let (head, count) = begin(frame)?;
    let used = HEAD_WIDTH + (32 + delay_width(head.ionosphere)) * count;
    Ok(alternates(&data_bits(frame)[used..]))
}
