//! Layouts that are a list of entries and nothing else: what the file of each says of
//! it, and what follows for all of them.

use super::fields::{alternates, data_bits, Fields, Layer};
use super::{begin_making, begin_reading, system, Layout, System};
use crate::frame::{Frame, Header};
use crate::refusal::{refuse_if, Answer, Refusal};
use crate::rng::{Draw, Rng};
use crate::samples;
use std::fmt::Debug;

/// A worked record.
pub struct Worked<L: 'static> {
    /// Its name, also of the test stream with its line.
    pub name: &'static str,
    /// The type of its frame; the rest of the header is that of all worked records.
    pub type_number: u16,
    /// What it says.
    pub entries: &'static [L],
    /// The words of its frame in hex, the header's two first.
    pub words: &'static str,
    /// The bytes of its line in hex.
    pub bytes: &'static str,
}

/// An entry of a list, numbers as sent; the functions that take no entry are about its
/// layout.
pub trait List: Copy + Default + Debug + PartialEq + 'static {
    /// The layout.
    const LAYOUT: Layout;

    /// The type numbers that can have it.
    const TYPES: &'static [u16];

    /// Most entries in a frame.
    const MOST: usize;

    /// Bits of an entry.
    const BITS: usize;

    /// The fill behind the last entry, once per 8 bits.
    const FILL: u8 = 0b1010_1010;

    /// Bytes of an entry as a row of the library.
    const SIZE: usize;

    /// Test streams, each with frames of every count: name and type.
    const STREAMS: &'static [(&'static str, u16)];

    /// Worked records.
    const WORKED: &'static [Worked<Self>];

    /// N for a count of entries.
    fn n_for(count: usize) -> usize;

    /// The next bits, read for a system.
    fn read(fields: &mut Fields, system: System) -> Self;

    /// Lays out the entry.
    fn put(&self, layer: &mut Layer);

    /// Whether every field is of this system and inside its range.
    fn in_range(&self, system: System) -> bool;

    /// The numbers that are summed of it, in the order sent.
    fn numbers(&self) -> Vec<u64>;

    /// The row of an entry.
    fn row(&self) -> Vec<u8>;

    /// The entry of a row, of this system.
    fn of_row(row: &[u8], system: System) -> Self;

    /// The highest value of each byte of a row.
    fn highest(system: System) -> &'static [u8];

    /// A random entry, right for a system.
    fn drawn(draw: &mut dyn Draw, system: System) -> Self;

    /// The count that entry numbers are drawn around, of any frame.
    fn near(frame: &Frame) -> usize {
        Self::count(frame).unwrap_or(0)
    }

    /// Number of entries. Refuses with 5, 6, 7, 8.
    fn count(frame: &Frame) -> Answer<usize> {
        begin_reading(frame, Self::LAYOUT)?;
        let fits = |count: &usize| Self::n_for(*count) == usize::from(frame.n);
        (1..=Self::MOST).find(fits).ok_or(Refusal::NDoesNotFit)
    }

    /// The entry with this number, from 0. Refuses with 5, 6, 7, 8, 9, 10.
    fn entry(frame: &Frame, number: usize) -> Answer<Self> {
        refuse_if(number >= Self::count(frame)?, Refusal::NoSuchEntry)?;
        let system = system(frame.header.type_number);
        let entry = Self::read(&mut Fields::from(frame, Self::BITS * number), system);
        refuse_if(!entry.in_range(system), Refusal::OutsideRange)?;
        Ok(entry)
    }

    /// The frame of the first `count` of `MOST` entries. Refuses with 5, 6, 7, 12, 10.
    fn make(header: &Header, entries: &[Self], count: usize) -> Answer<Frame> {
        begin_making(header, Self::LAYOUT)?;
        refuse_if(!(1..=Self::MOST).contains(&count), Refusal::EntryCount)?;
        let used = &entries[..count];
        let system = system(header.type_number);
        let all_in_range = used.iter().all(|entry| entry.in_range(system));
        refuse_if(!all_in_range, Refusal::OutsideRange)?;
        let mut layer = Layer::default();
        for entry in used {
            entry.put(&mut layer);
        }
        layer.fill(Self::FILL);
        Ok(layer.frame(header))
    }

    /// Whether the bits after the last entry are standard fill. Refuses as `count`.
    fn fill_is_standard(frame: &Frame) -> Answer<bool> {
        let used = Self::BITS * Self::count(frame)?;
        Ok(alternates(&data_bits(frame)[used..]))
    }

    /// The frame made from a frame's entries, and their numbers; of one that can't be
    /// read, those before it. Refuses as `entry` and `make`.
    fn again(frame: &Frame, numbers: &mut Vec<u64>) -> Answer<Frame> {
        let count = Self::count(frame)?;
        let mut entries = vec![Self::default(); Self::MOST];
        for (i, entry) in entries.iter_mut().take(count).enumerate() {
            *entry = Self::entry(frame, i)?;
            numbers.extend(entry.numbers());
        }
        Self::make(&frame.header, &entries, count)
    }

    /// The entries of the first rows, for a type; `MOST` of them.
    fn of_rows(type_number: u16, rows: &[u8]) -> Vec<Self> {
        let mut entries = vec![Self::default(); Self::MOST];
        for (entry, row) in entries.iter_mut().zip(rows.chunks_exact(Self::SIZE)) {
            *entry = Self::of_row(row, system(type_number));
        }
        entries
    }

    /// As many random entries as a frame can have, for a type.
    fn all_drawn(draw: &mut dyn Draw, type_number: u16) -> Vec<Self> {
        let entry = |_| Self::drawn(draw, system(type_number));
        (0..Self::MOST).map(entry).collect()
    }

    /// A frame of this type with so many random entries.
    fn sample(rng: &mut Rng, type_number: u16, count: usize) -> Frame {
        let entries = Self::all_drawn(rng, type_number);
        let header = samples::header(rng, type_number);
        Self::make(&header, &entries, count).expect("a correct record")
    }
}
