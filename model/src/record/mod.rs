//! Records: which layout a frame has, the list layouts one after the other, and the
//! refusals that open every reading and making.

pub mod correction;
pub mod fields;
pub mod general;
pub mod general_null;
pub mod health;
pub mod list;
pub mod null;
pub mod observation;
pub mod position;
pub mod text;
pub mod values;

use correction::Correction;
use health::Health;
use list::List;

use crate::frame::{check_frame, check_header, Frame, Header, MOST_WORDS, Z_COUNTS};
use crate::refusal::{refuse_if, Answer, Refusal};

/// The layout of a frame's data words.
#[derive(Clone, Copy, Debug, PartialEq, Eq)]
pub enum Layout {
    /// Types 1, 9 and 31, and type 34 with N from 2.
    Correction,
    /// Types 3 and 32.
    Position,
    /// Types 5 and 33.
    Health,
    /// Type 6, and type 34 with N 0 or 1.
    Null,
    /// Types 16 and 36.
    Text,
    /// Types 18 and 19.
    Observation,
    /// Type 41, and type 42 with N other than 1.
    General,
    /// Type 42 with N 1.
    GeneralNull,
    /// Every other type number.
    Plain,
}

/// The layout that follows from a type number; of types 34 and 42, from N too.
pub fn layout(type_number: u16, n: u8) -> Layout {
    match type_number {
        1 | 9 | 31 => Layout::Correction,
        3 | 32 => Layout::Position,
        5 | 33 => Layout::Health,
        6 => Layout::Null,
        16 | 36 => Layout::Text,
        18 | 19 => Layout::Observation,
        34 if n <= 1 => Layout::Null,
        34 => Layout::Correction,
        42 if n == 1 => Layout::GeneralNull,
        41 | 42 => Layout::General,
        _ => Layout::Plain,
    }
}

/// Whether a type number has this layout, with one N or another.
pub fn may_have(type_number: u16, wanted: Layout) -> bool {
    (0..=MOST_WORDS as u8).any(|n| layout(type_number, n) == wanted)
}

/// The type numbers that have a layout, whatever N is.
pub fn types() -> Vec<u16> {
    let all = 1..=64;
    all.filter(|number| !may_have(*number, Layout::Plain))
        .collect()
}

/// What is done with every list layout.
pub trait ForEach {
    /// Does it with one.
    fn list<L: List>(&mut self);
}

/// Goes through the list layouts, in the order of the library's header.
pub fn for_each_list(what: &mut impl ForEach) {
    what.list::<Correction>();
    what.list::<Health>();
}

/// The system whose satellites a frame speaks of.
#[derive(Clone, Copy, Debug, PartialEq, Eq, Hash)]
pub enum System {
    /// Types 1, 5 and 9.
    Gps,
    /// Types 31, 33 and 34.
    Glonass,
}

/// The system of a type number whose frames name satellites.
pub fn system(type_number: u16) -> System {
    match type_number {
        31 | 33 | 34 => System::Glonass,
        _ => System::Gps,
    }
}

/// The first refusals of reading a record: 5, 6, 7.
fn begin_reading(frame: &Frame, wanted: Layout) -> Answer<()> {
    check_frame(frame)?;
    check_type_and_z(&frame.header, wanted)
}

/// The first refusals of making a frame: 5, 6, 7.
fn begin_making(header: &Header, wanted: Layout) -> Answer<()> {
    check_header(header)?;
    check_type_and_z(header, wanted)
}

/// Refuses another type, whatever N is, then a Z count outside the hour.
fn check_type_and_z(header: &Header, wanted: Layout) -> Answer<()> {
    refuse_if(!may_have(header.type_number, wanted), Refusal::AnotherType)?;
    refuse_if(header.z_count >= Z_COUNTS, Refusal::ZCount)
}
