//! The list layouts as a table, the types of their entries forgotten: what test material
//! and calls need of each.

use crate::frame::{Frame, Header};
use crate::library::{lists, Head};
use crate::record::list::List;
use crate::record::{for_each_list, ForEach, Layout, System};
use crate::refusal::Answer;
use crate::rng::{Draw, Rng};
use std::sync::LazyLock;

/// A list layout: what `List` has under the same names, and its calls.
pub struct Table {
    /// The layout.
    pub layout: Layout,
    /// The type numbers that can have it.
    pub types: &'static [u16],
    /// Most entries in a frame.
    pub most: usize,
    /// Bytes of a row.
    pub size: usize,
    /// N for a count.
    pub n_for: fn(usize) -> usize,
    /// The count that entry numbers are drawn around.
    pub near: fn(&Frame) -> usize,
    /// The frame made from a frame's entries, and their numbers.
    pub again: fn(&Frame, &mut Vec<u64>) -> Answer<Frame>,
    /// Whether the fill is the standard one.
    pub fill_is_standard: fn(&Frame) -> Answer<bool>,
    /// Test streams: name and type.
    pub streams: &'static [(&'static str, u16)],
    /// Worked records: name and bytes.
    pub worked: Vec<(&'static str, &'static str)>,
    /// A frame of a type with so many random entries.
    pub sample: fn(&mut Rng, u16, usize) -> Frame,
    /// A frame of a header with random entries, any count of them.
    pub drawn: fn(&mut dyn Draw, &Header) -> Frame,
    /// The row of a random entry.
    pub row_drawn: fn(&mut dyn Draw, System) -> Vec<u8>,
    /// The highest value of each byte of a row.
    pub highest: fn(System) -> &'static [u8],
    /// The call that counts.
    pub count: fn(&[u8], &mut usize) -> u8,
    /// The call that reads an entry.
    pub at: fn(&[u8], usize, &mut [u8]) -> u8,
    /// The call that makes a frame.
    pub make: fn(Head, &[u8], &mut [u8], &mut usize) -> u8,
}

/// All list layouts, in the order of the library's header.
pub static LISTS: LazyLock<Vec<Table>> = LazyLock::new(|| {
    let mut all = Vec::new();
    for_each_list(&mut all);
    all
});

impl ForEach for Vec<Table> {
    fn list<L: List>(&mut self) {
        self.push(Table {
            layout: L::LAYOUT,
            types: L::TYPES,
            most: L::MOST,
            size: L::SIZE,
            n_for: L::n_for,
            near: L::near,
            again: L::again,
            fill_is_standard: L::fill_is_standard,
            streams: L::STREAMS,
            worked: L::WORKED.iter().map(|one| (one.name, one.bytes)).collect(),
            sample: L::sample,
            drawn: drawn::<L>,
            row_drawn: |draw, system| L::drawn(draw, system).row(),
            highest: L::highest,
            count: lists::count::<L>,
            at: lists::at::<L>,
            make: lists::make::<L>,
        });
    }
}

/// A frame of a header with random entries; their count is drawn last.
fn drawn<L: List>(draw: &mut dyn Draw, header: &Header) -> Frame {
    let entries = L::all_drawn(draw, header.type_number);
    let count = draw.pulled(1, L::MOST as i64) as usize;
    L::make(header, &entries, count).expect("a right record")
}

/// The list layout of these frames, if it is one.
pub fn of(layout: Layout) -> Option<&'static Table> {
    LISTS.iter().find(|list| list.layout == layout)
}

/// The list layout that frames of this type can have, if any.
pub fn of_type(type_number: u16) -> Option<&'static Table> {
    LISTS.iter().find(|list| list.types.contains(&type_number))
}
