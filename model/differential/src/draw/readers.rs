//! Calls on readers, each with a line of its own: fed, ended, taken from and
//! started in any order, from fresh states and forged ones.

use super::bits::line_bytes;
use super::ends::longer;
use super::states::forged;
use super::{numbers, parts, room};
use crate::call::{Call, Function};
use crate::place::Place;
use rtcm2_model::journal;
use rtcm2_model::library::line;
use rtcm2_model::library::state::State;
use rtcm2_model::library::turns::ROW;
use rtcm2_model::refusal::Refusal;
use rtcm2_model::rng::Rng;

/// A reader's bytes and the line that it is fed.
struct Reader {
    state: Vec<u8>,
    line: Vec<u8>,
    fed: usize,
}

/// The readers, and which of them the last call was on.
pub struct Readers {
    all: Vec<Reader>,
    called: Option<usize>,
}

impl Readers {
    /// Eight readers.
    pub fn new(rng: &mut Rng) -> Readers {
        Readers {
            all: (0..8).map(|_| Reader::drawn(rng)).collect(),
            called: None,
        }
    }

    /// A call on one of them.
    pub fn call(&mut self, rng: &mut Rng) -> Call {
        let number = rng.place(self.all.len());
        let reader = &mut self.all[number];
        if rng.below(if reader.is_spent() { 2 } else { 60 }) == 0 {
            *reader = Reader::drawn(rng);
        }
        self.called = Some(number);
        reader.call(rng)
    }

    /// The reader goes on from the state that the call left, after the bytes used; the
    /// call that only reads it leaves it.
    pub fn after(&mut self, call: &mut Call, answer: u64) {
        let Some(number) = self.called.take() else {
            return;
        };
        if call.function == Function::Counts {
            return;
        }
        let reader = &mut self.all[number];
        let size = reader.state.len();
        reader.state.copy_from_slice(&call.lent[0].bytes()[..size]);
        reader.fed += match (call.function, answer) {
            (Function::Feed, 0 | 1) => 1,
            (Function::FeedAll, 0) => *call.lent[1].number::<usize>(),
            (Function::Read, 0) => *call.lent[2].number::<usize>(),
            _ => 0,
        };
    }
}

impl Reader {
    /// A reader that is fresh or forged, with a new line.
    fn drawn(rng: &mut Rng) -> Reader {
        let mut state = forged(rng);
        if rng.bit() {
            line::start(&mut state);
        }
        Reader {
            state,
            line: line_bytes(rng),
            fed: 0,
        }
    }

    /// Whether nothing more can come of it: no frame can be taken after the end or
    /// from a state that says one waits, or it is refused with 5.
    fn is_spent(&self) -> bool {
        let Ok(mut state) = State::read(&self.state) else {
            return true;
        };
        let (ended, waits) = (state.ended, state.waits);
        match state.take() {
            Ok(_) => false,
            Err(Refusal::NoFrameWaits) => ended || waits,
            Err(_) => true,
        }
    }

    /// The next call: mostly the one that a caller would make now.
    fn call(&self, rng: &mut Rng) -> Call {
        let waits = State::read(&self.state).is_ok_and(|state| state.waits);
        let function = match rng.below(25) {
            0 => Function::Start,
            1 => Function::End,
            2 => Function::Take,
            3 => Function::Feed,
            4 => Function::FeedAll,
            5 => Function::Counts,
            6 | 7 => Function::Read,
            _ if waits => Function::Take,
            _ if self.fed >= self.line.len() => Function::End,
            8..=11 => Function::Feed,
            12..=14 => Function::Read,
            _ => Function::FeedAll,
        };
        self.call_of(function, rng)
    }

    /// A call of this function.
    fn call_of(&self, function: Function, rng: &mut Rng) -> Call {
        let mut lent = vec![Place::starting(rng, &self.state)];
        let (mut given, mut read) = (vec![], vec![]);
        match function {
            Function::Counts => {
                read.append(&mut lent);
                lent.extend(numbers(rng, 2));
            }
            Function::Feed => given.push(self.next_byte(rng).into()),
            Function::FeedAll => {
                read.push(self.next_bytes(rng));
                lent.extend(numbers(rng, 2));
            }
            Function::Take => {
                lent.push(room(rng, self.frame_length()));
                lent.extend(numbers(rng, 4));
            }
            Function::Read => {
                read.push(self.next_bytes(rng));
                lent.push(rows(rng));
                lent.extend(numbers(rng, 3));
            }
            _ => {}
        }
        parts(function, given, read, lent)
    }

    /// The next byte of the line, or any.
    fn next_byte(&self, rng: &mut Rng) -> u8 {
        match self.line.get(self.fed) {
            Some(byte) if rng.below(40) > 0 => *byte,
            _ => rng.byte(),
        }
    }

    /// The next bytes of the line: none, a few, or all; all of over 65,536.
    fn next_bytes(&self, rng: &mut Rng) -> Place {
        let rest = self.line.get(self.fed..).unwrap_or(&[]);
        let count = match rng.below(4) {
            _ if rest.len() > 1 << 16 => rest.len(),
            0 => rng.place(8),
            1 => rng.place(60),
            2 => rng.place(300),
            _ => rest.len(),
        };
        Place::holding(rng, &rest[..count.min(rest.len())])
    }

    /// The length of the frame that waits, or of the shortest.
    fn frame_length(&self) -> usize {
        let taken = State::read(&self.state).and_then(|mut state| state.take());
        taken.map_or(9, |taken| journal::length_for(taken.frame.n.into()))
    }
}

/// Room for none to a few rows: just so many bytes, one less, one more, or more by less
/// than a row; seldom too short for one modulo 2^8 or 2^16.
fn rows(rng: &mut Rng) -> Place {
    let count = match rng.below(4) {
        0 => rng.place(3),
        1 => rng.place(12),
        _ => 1,
    };
    let size = match rng.below(10) {
        0 => (ROW * count).saturating_sub(1),
        1 => ROW * count + 1,
        2 => ROW * count + rng.place(ROW),
        3 => {
            let few = rng.place(ROW);
            longer(rng, few)
        }
        _ => ROW * count,
    };
    Place::bytes_of_size(rng, size)
}
