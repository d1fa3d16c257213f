//! Test streams with fixed seeds. Each stream's numbers come from its own name,
//! so adding or dropping one changes no other.

mod damage;
pub mod failing;
mod false_starts;
mod grid;
mod hiding;
mod mixed;
mod noise;
mod past_end;
mod polarity;
mod slips;
mod small;
mod strewn;
mod valid;
mod vectors;

use crate::listing;
use crate::mangle::mangle;
use crate::rng::Rng;
use crate::tables::LISTS;

/// Makes the bytes of one stream.
type Maker = fn(&mut Rng) -> Vec<u8>;

/// A stream's name within its group, and its maker.
type Entry = (&'static str, Maker);

/// The groups; a group's place is the number its names start with.
const GROUPS: [&[Entry]; 13] = [
    valid::STREAMS,
    slips::STREAMS,
    polarity::STREAMS,
    strewn::STREAMS,
    false_starts::STREAMS,
    past_end::STREAMS,
    noise::STREAMS,
    grid::STREAMS,
    damage::STREAMS,
    small::STREAMS,
    mixed::STREAMS,
    vectors::STREAMS,
    failing::STREAMS,
];

/// The groups that the file of a list layout adds to.
const VALID: usize = 1;
const WORKED: usize = 12;

/// A test stream.
#[derive(Clone, Debug, PartialEq, Eq)]
pub struct Stream {
    /// Its name, such as `01-valid-a`.
    pub name: String,
    /// Its bytes.
    pub bytes: Vec<u8>,
}

impl Stream {
    /// The listing expected for it, by the definition.
    pub fn expected(&self) -> String {
        listing::by_definition(&self.bytes)
    }
}

/// All test streams, in the order of their names.
pub fn all() -> Vec<Stream> {
    let mut streams = Vec::new();
    for (i, group) in (1..).zip(GROUPS) {
        for (name, maker) in group {
            push(&mut streams, i, name, maker(&mut Rng::named(name)));
        }
    }
    for list in LISTS.iter() {
        for (name, type_number) in list.streams {
            let bytes = valid::list(list, &mut Rng::named(name), *type_number);
            push(&mut streams, VALID, name, bytes);
        }
        for (name, bytes) in &list.worked {
            push(&mut streams, WORKED, name, vectors::bytes(bytes));
        }
    }
    streams.sort_by(|a, b| a.name.cmp(&b.name));
    streams
}

/// Adds a stream of a group.
fn push(streams: &mut Vec<Stream>, group: usize, name: &str, bytes: Vec<u8>) {
    streams.push(Stream {
        name: format!("{group:02}-{name}"),
        bytes,
    });
}

/// A stream of over a million bytes: test streams in any order, some damaged.
pub fn long() -> Stream {
    let (mut rng, all) = (Rng::named("long"), all());
    let mut bytes = Vec::new();
    while bytes.len() < 1_200_000 {
        let mut part = all[rng.place(all.len())].bytes.clone();
        for _ in 0..rng.place(4) {
            mangle(&mut part, &mut rng);
        }
        bytes.extend(part);
    }
    Stream {
        name: "long".to_string(),
        bytes,
    }
}
