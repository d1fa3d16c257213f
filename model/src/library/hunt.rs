//! The bits that a state holds, and the hunt over them.

use super::state::{State, CELLS};
use crate::frame::{n_of, preamble_is_right};
use crate::line::{bits_of_byte, BITS_PER_BYTE};
use crate::window;
use crate::word::Tested;

/// The last end of the bits held from which a byte finds room.
const LAST_END: usize = 1216;

/// What the bits that have come say of a position.
enum Verdict {
    /// Word 1 has come and has no preamble.
    Headless,
    /// A word that has come fails with this remainder.
    Failed(u8),
    /// A frame stands.
    Standing,
    /// So many words are right, and the next has not come.
    Waiting(usize),
}

impl State {
    /// The 32 bits of word k of the position with the two before it; they have come.
    pub(super) fn word(&self, k: usize) -> u32 {
        let from = self.end - self.held + 30 * k;
        let cell = |i: usize| u64::from(self.cells.get(i).copied().unwrap_or(0));
        let both = cell(from / 32) << 32 | cell(from / 32 + 1);
        (both << (from % 32) >> 32) as u32
    }

    /// How many words the frame has by N of its word 2, which has come.
    pub(super) fn size(&self) -> usize {
        2 + usize::from(n_of(window::data(self.word(1))))
    }

    /// Lets the first bits held go, with the position.
    pub(super) fn leave(&mut self, count: usize) {
        self.held -= count;
        self.at = self.at.wrapping_add(count as u32);
    }

    /// Six bits more, and the hunt goes on.
    pub(super) fn step(&mut self, byte: u8) {
        if self.end > LAST_END {
            self.move_down((self.end - self.held) / 32);
        }
        self.put_bits(byte);
        self.end += BITS_PER_BYTE;
        self.held += BITS_PER_BYTE;
        self.hunt();
    }

    /// Moves all cells down; the last ones keep what they held.
    fn move_down(&mut self, count: usize) {
        for i in count..CELLS {
            self.cells[i - count] = self.cells[i];
        }
        self.end -= 32 * count;
    }

    /// Puts a byte's six bits after the bits held; zeros follow to the end of the
    /// cell after the one where they begin.
    fn put_bits(&mut self, byte: u8) {
        let first = self.end / 32;
        for place in self.end..32 * (first + 2) {
            self.cells[place / 32] &= !(1 << (31 - place % 32));
        }
        let bits = bits_of_byte(byte).unwrap_or_default();
        for (place, bit) in (self.end..).zip(bits) {
            self.cells[place / 32] |= u32::from(bit) << (31 - place % 32);
        }
    }

    /// Goes on from the position looked at until a frame waits or a position is
    /// undecided; after the end no position is, and no bit stays held.
    pub(super) fn hunt(&mut self) {
        self.waits = false;
        while self.held > 0 {
            match self.verdict(self.words) {
                Verdict::Standing => {
                    self.words = 0;
                    self.waits = true;
                    return;
                }
                Verdict::Waiting(words) if !self.ended => {
                    self.words = words;
                    return;
                }
                out => {
                    if let Verdict::Failed(remainder) = out {
                        self.counts.add(remainder);
                    }
                    self.leave(1);
                    self.words = 0;
                }
            }
        }
    }

    /// Whether a frame stands at the position looked at, every word tested.
    pub(super) fn stands(&self) -> bool {
        matches!(self.verdict(0), Verdict::Standing)
    }

    /// The verdict on the position looked at, of which so many words are known right.
    fn verdict(&self, known: usize) -> Verdict {
        let mut k = known;
        while 32 + 30 * k <= self.held {
            let word = self.word(k);
            let preambled = k > 0 || preamble_is_right(window::data(word));
            if !preambled {
                return Verdict::Headless;
            }
            if let Tested::Failed(remainder) = window::test(word) {
                return Verdict::Failed(remainder);
            }
            k += 1;
            if k >= 2 && k >= self.size() {
                return Verdict::Standing;
            }
        }
        Verdict::Waiting(k)
    }
}
