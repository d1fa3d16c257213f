//! The definition of the hunt: which frames stand in a bit stream, and which
//! positions a word rules out. Direct and slow; every position is judged from the
//! bits alone.

use crate::frame::{n_of, preamble_is_right, Frame};
use crate::word::{data_bits, number_of, test, Pair, Tested};

/// What the bits taken so far say of one position.
#[derive(Clone, Debug, PartialEq, Eq)]
pub enum Standing {
    /// A frame stands here.
    Stands(Box<Frame>),
    /// A word that has fully come fails, or the preamble does.
    RuledOut(Cause),
    /// Every word that has come passes, and more are to come.
    Open,
}

/// Why a position is ruled out before the end.
#[derive(Clone, Copy, Debug, PartialEq, Eq)]
pub enum Cause {
    /// Word 1 has no preamble, whether it passes parity or not.
    Preamble,
    /// The first word to fail, counted from 1, and its remainder.
    Word(usize, u8),
}

/// A position that a word ruled out.
#[derive(Clone, Copy, Debug, PartialEq, Eq)]
pub struct Fault {
    /// The position.
    pub position: usize,
    /// Which of its words failed first, counted from 1.
    pub word: usize,
    /// That word's remainder.
    pub remainder: u8,
}

/// The two line bits before a position.
fn pair_before(bits: &[bool], at: usize) -> Pair {
    Pair {
        d29: bits[at - 2],
        d30: bits[at - 1],
    }
}

/// The line word at a position and the two bits before it, if it has come.
fn word_at(bits: &[bool], at: usize) -> Option<([bool; 30], Pair)> {
    let word = bits.get(at..at + 30)?.try_into().ok()?;
    Some((word, pair_before(bits, at)))
}

/// Whether a frame stands at position `p`, which is at least 2.
pub fn standing(bits: &[bool], p: usize) -> Standing {
    assert!(p >= 2, "positions 0 and 1 have no two bits before them");
    let mut all: Vec<u32> = Vec::new();
    loop {
        let Some((word, pair)) = word_at(bits, p + 30 * all.len()) else {
            return Standing::Open;
        };
        all.push(number_of(&data_bits(&word, pair)));
        if !preamble_is_right(all[0]) {
            return Standing::RuledOut(Cause::Preamble);
        }
        if let Tested::Failed(remainder) = test(&word, pair) {
            return Standing::RuledOut(Cause::Word(all.len(), remainder));
        }
        if all.len() >= 2 && all.len() == usize::from(n_of(all[1])) + 2 {
            let frame = Frame::of_words(&all).after(pair_before(bits, p).into());
            return Standing::Stands(Box::new(frame));
        }
    }
}

/// Hunts from a position: the first frame that stands with all positions before
/// it ruled out, or the position that is still open.
pub fn hunt(bits: &[bool], from: usize, ended: bool) -> (usize, Option<Frame>) {
    let mut p = from.max(2);
    while p < bits.len() {
        match standing(bits, p) {
            Standing::Stands(frame) => return (p, Some(*frame)),
            Standing::Open if !ended => return (p, None),
            Standing::Open | Standing::RuledOut(_) => p += 1,
        }
    }
    (p, None)
}

/// All frames handed out for these bits, with their first bit positions, when
/// every waiting frame is taken at once.
pub fn scan(bits: &[bool], ended: bool) -> Vec<(usize, Frame)> {
    let mut frames = Vec::new();
    let mut from = 2;
    while let (p, Some(frame)) = hunt(bits, from, ended) {
        from = p + 30 * (usize::from(frame.n) + 2);
        frames.push((p, frame));
    }
    frames
}

/// The positions that a word ruled out, in order, when of these bits so many frames
/// have been taken: behind the last frame taken the hunt goes on to the frame that
/// waits, to the position that is still open, or to the end.
pub fn faults(bits: &[bool], ended: bool, taken: usize) -> Vec<Fault> {
    let mut faults = Vec::new();
    let (mut p, mut left) = (2, taken);
    while p < bits.len() {
        match standing(bits, p) {
            Standing::Stands(_) if left == 0 => break,
            Standing::Stands(frame) => {
                left -= 1;
                p += 30 * (usize::from(frame.n) + 2);
            }
            Standing::Open if !ended => break,
            Standing::RuledOut(Cause::Word(word, remainder)) => {
                faults.push(Fault {
                    position: p,
                    word,
                    remainder,
                });
                p += 1;
            }
            Standing::RuledOut(Cause::Preamble) | Standing::Open => p += 1,
        }
    }
    faults
}

/// How many of these have a remainder with an odd number of ones, and how many with an
/// even one.
pub fn odd_and_even(faults: &[Fault]) -> [usize; 2] {
    let is_odd = |fault: &&Fault| fault.remainder.count_ones() % 2 == 1;
    let odd = faults.iter().filter(is_odd).count();
    [odd, faults.len() - odd]
}
