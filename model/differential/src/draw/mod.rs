//! Random calls: of readers that go on from call to call, and of single frames.

mod bits;
mod ends;
mod entries;
mod frames;
mod headed;
mod journals;
mod makers;
mod readers;
mod reports;
mod season;
mod states;

use crate::call::{Call, Function};
use crate::place::Place;
use ends::{around, inside, one_of};
use readers::Readers;
use rtcm2_model::record::types;
use rtcm2_model::rng::Rng;
use rtcm2_model::word::{apart, bits_of, encode};

/// Draws calls from a seed.
pub struct Draw {
    rng: Rng,
    readers: Readers,
}

impl Draw {
    /// The calls of a seed.
    pub fn new(seed: u64) -> Draw {
        let mut rng = Rng::new(seed);
        let readers = Readers::new(&mut rng);
        Draw { rng, readers }
    }

    /// The next call.
    pub fn call(&mut self) -> Call {
        let rng = &mut self.rng;
        match rng.below(108) {
            0..=44 => self.readers.call(rng),
            45..=66 => frames::call(rng),
            67..=86 => makers::call(rng),
            87..=97 => journals::call(rng),
            98 | 99 => season::call(rng),
            _ => number(rng),
        }
    }

    /// Lets the reader that was called go on from the state that it left.
    pub fn after(&mut self, call: &mut Call, answer: u64) {
        self.readers.after(call, answer);
    }
}

/// A call on the numbers of a record, on a window, or on nothing.
fn number(rng: &mut Rng) -> Call {
    let (function, given) = match rng.below(23) {
        0 => return parts(Function::StateSize, vec![], vec![], vec![]),
        13 | 14 => {
            let given = vec![window(rng).into()];
            return parts(Function::Remainder, given, vec![], numbers(rng, 1));
        }
        11 | 12 => {
            let given = vec![code(rng)];
            return parts(Function::LetterOf, given, vec![], numbers(rng, 1));
        }
        15 | 16 => (Function::GeneralPrcMm, vec![general_prc(rng)]),
        17 | 18 => (Function::DelayMm, vec![around(rng, 0, 4095, 16)]),
        19 | 20 => {
            let health = around(rng, 0, 7, 8);
            (Function::GeneralUdre, vec![health, around(rng, 0, 15, 8)])
        }
        21 | 22 => {
            let given = vec![around(rng, 0, 3, 8)];
            return parts(Function::UseSeconds, given, vec![], numbers(rng, 1));
        }
        9 | 10 => {
            let given = vec![inside(rng, -32768, 32767), inside(rng, -128, 127)];
            return parts(Function::Stops, given, vec![], numbers(rng, 1));
        }
        1 | 2 => {
            let prc = inside(rng, -32768, 32767);
            (Function::PrcMm, vec![around(rng, 0, 1, 8), prc])
        }
        3 | 4 => {
            let rrc = inside(rng, -128, 127);
            (Function::RrcMmS, vec![around(rng, 0, 1, 8), rrc])
        }
        5 | 6 => {
            let health = around(rng, 0, 7, 8);
            (Function::UdreLimitMm, vec![health, around(rng, 0, 3, 8)])
        }
        _ => (Function::Cn0Dbhz, vec![around(rng, 0, 31, 8)]),
    };
    parts(function, given, vec![], numbers(rng, 2))
}

/// A PRC of fourteen bits, or one just past them, or any of sixteen.
fn general_prc(rng: &mut Rng) -> i64 {
    match rng.below(4) {
        0 => one_of(rng, &[-8194, -8193, -8192, -8191, 8190, 8191, 8192, 8193]),
        1 => inside(rng, -32768, 32767),
        _ => inside(rng, -8192, 8191),
    }
}

/// A character's code: any, or one beside an end of what a type allows.
fn code(rng: &mut Rng) -> i64 {
    match rng.below(2) {
        0 => one_of(rng, &CODES).into(),
        _ => rng.byte().into(),
    }
}

/// A window: any 32 bits, or a word after a pair with none, one, two or all of
/// its bits turned.
fn window(rng: &mut Rng) -> u32 {
    let any = rng.draw() as u32;
    let (_, pair) = apart(any);
    let word = encode(&bits_of(rng.word()), pair);
    let good = word
        .iter()
        .fold(any >> 30, |sum, bit| sum << 1 | u32::from(*bit));
    match rng.below(5) {
        0 => any,
        1 => good,
        2 => good ^ 1 << rng.below(32),
        3 => good ^ 1 << rng.below(32) ^ 1 << rng.below(32),
        _ => !good,
    }
}

/// Codes at the ends of what types 16 and 36 allow, and just past them.
const CODES: [u8; 8] = [0, 1, 2, 127, 128, 191, 192, 255];

/// A type number that has a record.
fn kind_with_record(rng: &mut Rng) -> u16 {
    one_of(rng, &types())
}

/// A call of these parts.
fn parts(function: Function, given: Vec<i64>, read: Vec<Place>, lent: Vec<Place>) -> Call {
    Call {
        function,
        given,
        read,
        lent,
    }
}

/// So many lent numbers.
fn numbers(rng: &mut Rng, count: usize) -> Vec<Place> {
    (0..count).map(|_| Place::number_drawn(rng)).collect()
}

/// Room for so many bytes: just enough, one too few, one more, or another number,
/// also one that is too few modulo 2^8 or 2^16.
fn room(rng: &mut Rng, need: usize) -> Place {
    let size = match rng.below(16) {
        0 => rng.place(need + 1),
        1 | 2 => need.saturating_sub(1),
        3 => need + 1,
        4 => rng.place(200),
        5 => {
            let less = rng.place(need + 1);
            ends::longer(rng, less)
        }
        _ => need,
    };
    Place::bytes_of_size(rng, size)
}
