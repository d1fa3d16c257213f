//! The stateful reader: feed, feed_all, end and take. Packed bits; each word of
//! a candidate is tested once. Same answers as `scan`, reached another way.

use crate::counts::Counts;
use crate::frame::{n_of, preamble_is_right, Frame};
use crate::line::{is_data_byte, BITS_PER_BYTE};
use crate::refusal::{refuse_if, Answer, Refusal};
use crate::window;
use crate::word::Tested;

/// Bits the packed store can hold.
const ROOM: usize = 32 * STORE;

/// Full store words; one more stands behind them so a window never runs out.
const STORE: usize = 64;

/// Most words of a frame, header and data.
const MOST_ALL_WORDS: usize = 33;

/// Most bits held from the candidate's D29* on: two carried, 989 of a frame
/// still open, and the six of one more byte.
const MOST_HELD: usize = 997;

/// A frame handed out.
#[derive(Clone, Copy, Debug, PartialEq, Eq)]
pub struct Taken {
    /// First bit position, modulo 4,294,967,296.
    pub position: u32,
    /// The frame.
    pub frame: Frame,
}

/// What `feed_all` did with the lent bytes.
#[derive(Clone, Copy, Debug, PartialEq, Eq)]
pub struct Fed {
    /// Bytes fed, from the first on; fewer than lent when a frame waits.
    pub used: usize,
    /// Bytes among them answered with refusal 1.
    pub passed: usize,
}

/// A reader of one stream.
#[derive(Clone, Debug, PartialEq, Eq)]
pub struct Reader {
    /// Held line bits, the first one highest in the first number.
    store: [u32; STORE + 1],
    /// Where in the store the candidate's D29* is.
    start: usize,
    /// Where in the store the next line bit goes.
    end: usize,
    /// Stream position of the candidate, modulo 4,294,967,296.
    position: u32,
    /// Words of the candidate that have come and passed.
    tested: usize,
    /// Data of those words.
    words: [u32; MOST_ALL_WORDS],
    /// Whether the input has ended.
    ended: bool,
    /// Positions that a word ruled out.
    counts: Counts,
}

impl Default for Reader {
    fn default() -> Self {
        Self::new()
    }
}

impl Reader {
    /// A fresh reader; the hunt starts at position 2.
    pub fn new() -> Reader {
        Reader {
            store: [0; STORE + 1],
            start: 0,
            end: 0,
            position: 2,
            tested: 0,
            words: [0; MOST_ALL_WORDS],
            ended: false,
            counts: Counts::default(),
        }
    }

    /// Positions that a word ruled out so far.
    pub fn counts(&self) -> Counts {
        self.counts
    }

    /// Whether a frame waits to be taken: all words of the candidate have passed.
    #[inline]
    pub fn waits(&self) -> bool {
        self.tested >= 2 && self.tested == usize::from(n_of(self.words[1])) + 2
    }

    /// Feeds one byte. Refuses with 5, 3, 2, 1.
    #[inline]
    pub fn feed(&mut self, byte: u8) -> Answer<()> {
        self.check_open()?;
        refuse_if(!is_data_byte(byte), Refusal::NotDataByte)?;
        self.push(byte);
        self.hunt();
        Ok(())
    }

    /// Feeds bytes until a frame waits or none are left; a byte that carries no
    /// bits is passed over and counted. Refuses with 5, 3, 2.
    pub fn feed_all(&mut self, bytes: &[u8]) -> Answer<Fed> {
        self.check_open()?;
        let mut fed = Fed { used: 0, passed: 0 };
        for byte in bytes {
            fed.used += 1;
            if !is_data_byte(*byte) {
                fed.passed += 1;
                continue;
            }
            self.push(*byte);
            self.hunt();
            if self.waits() {
                break;
            }
        }
        Ok(fed)
    }

    /// Ends the input. Refuses with 5, 3, 2.
    pub fn end(&mut self) -> Answer<()> {
        self.check_open()?;
        self.ended = true;
        self.hunt();
        Ok(())
    }

    /// Takes the waiting frame. Refuses with 5, 4.
    pub fn take(&mut self) -> Answer<Taken> {
        self.check_counts()?;
        refuse_if(!self.waits(), Refusal::NoFrameWaits)?;
        let taken = Taken {
            position: self.position,
            frame: Frame::of_words(&self.words[..self.tested])
                .after(window::carried(self.window(self.start))),
        };
        self.move_on(30 * self.tested);
        self.hunt();
        Ok(taken)
    }

    /// The refusals that feeding and ending share.
    #[inline]
    fn check_open(&self) -> Answer<()> {
        self.check_counts()?;
        refuse_if(self.ended, Refusal::AfterEnd)?;
        refuse_if(self.waits(), Refusal::FrameWaits)
    }

    /// Refuses a state whose counts go past what it can hold.
    #[inline]
    fn check_counts(&self) -> Answer<()> {
        let whole = self.end <= ROOM
            && self.start <= self.end
            && self.end - self.start <= MOST_HELD
            && self.tested <= MOST_ALL_WORDS
            && (self.tested == 0 || self.start + 2 + 30 * self.tested <= self.end);
        refuse_if(!whole, Refusal::OutsideWidths)
    }

    /// Stores the six line bits of a data byte.
    #[inline]
    fn push(&mut self, byte: u8) {
        if self.end + BITS_PER_BYTE > ROOM {
            self.make_room();
        }
        let six = u64::from(byte.reverse_bits() >> 2);
        let (index, used) = (self.end / 32, self.end % 32);
        let placed = six << (64 - BITS_PER_BYTE) >> used;
        self.store[index] |= (placed >> 32) as u32;
        self.store[index + 1] |= placed as u32;
        self.end += BITS_PER_BYTE;
    }

    /// Drops whole numbers before the candidate's carried bits.
    fn make_room(&mut self) {
        let gone = self.start / 32;
        self.store.copy_within(gone.., 0);
        self.store[STORE + 1 - gone..].fill(0);
        self.start -= 32 * gone;
        self.end -= 32 * gone;
    }

    /// The 32 bits from a place in the store on.
    #[inline]
    fn window(&self, from: usize) -> u32 {
        let (index, used) = (from / 32, from % 32);
        let both = u64::from(self.store[index]) << 32 | u64::from(self.store[index + 1]);
        (both << used >> 32) as u32
    }

    /// Leaves the candidate for the one this many bits on.
    #[inline]
    fn move_on(&mut self, count: usize) {
        self.start += count;
        self.position = self.position.wrapping_add(count as u32);
        self.tested = 0;
    }

    /// Tests words as they have come, moving on from candidate to candidate,
    /// until a frame waits or more bits are needed.
    #[inline]
    fn hunt(&mut self) {
        while !self.waits() {
            if self.tested == 0 {
                self.pass_over();
            }
            let from = self.start + 30 * self.tested;
            if from + 32 > self.end {
                if !self.ended || self.start + 32 > self.end {
                    return;
                }
                self.move_on(1);
            } else if self.word_fails(from) {
                self.move_on(1);
            }
        }
    }

    /// Moves on past the candidates whose word 1 has come without the preamble.
    #[inline]
    fn pass_over(&mut self) {
        let mut at = self.start;
        while at + 32 <= self.end && !preamble_is_right(window::data(self.window(at))) {
            at += 1;
        }
        self.move_on(at - self.start);
    }

    /// Tests the next word of the candidate and keeps its data if it passes; word 1
    /// has its preamble, so a word that fails is counted.
    #[inline]
    fn word_fails(&mut self, from: usize) -> bool {
        let window = self.window(from);
        if let Tested::Failed(remainder) = window::test(window) {
            self.counts.add(remainder);
            return true;
        }
        self.words[self.tested] = window::data(window);
        self.tested += 1;
        false
    }
}

#[cfg(test)]
mod tests {
    use super::*;

    const STREAM: [u8; 11] = [
        0x40, 0x66, 0x61, 0x41, 0x68, 0x7F, 0x7F, 0x6C, 0x73, 0x7F, 0x44,
    ];

    /// A reader that has taken this many bits, modulo 4,294,967,296, already.
    fn reader_at(taken: u32) -> Reader {
        let mut reader = Reader::new();
        for _ in 0..500 {
            reader.feed(0x40).unwrap();
        }
        let back = 3000 - reader.position;
        reader.position = taken.wrapping_sub(back);
        reader
    }

    #[test]
    fn positions_go_round() {
        for first in [0_u32, 1, 2, 3, 5, u32::MAX, u32::MAX - 30, 59, 60] {
            let mut reader = reader_at(first.wrapping_sub(6));
            let fed = reader.feed_all(&STREAM).unwrap();
            assert_eq!(
                fed,
                Fed {
                    used: 11,
                    passed: 0
                }
            );
            assert_eq!(reader.take().unwrap().position, first);
        }
    }

    #[test]
    fn counts_past_the_room_are_refused_first() {
        let breaks: [fn(&mut Reader); 5] = [
            |reader| reader.end = ROOM + 1,
            |reader| reader.end = MOST_HELD + 1,
            |reader| reader.start = reader.end + 1,
            |reader| reader.tested = MOST_ALL_WORDS + 1,
            |reader| reader.tested = 1,
        ];
        for bad in breaks {
            for ended in [false, true] {
                let mut reader = Reader::new();
                reader.ended = ended;
                bad(&mut reader);
                assert_eq!(reader.feed(0x3F), Err(Refusal::OutsideWidths));
                assert_eq!(reader.feed_all(&[]), Err(Refusal::OutsideWidths));
                assert_eq!(reader.end(), Err(Refusal::OutsideWidths));
                assert_eq!(reader.take(), Err(Refusal::OutsideWidths));
            }
        }
    }

    #[test]
    fn held_bits_stay_within_bounds() {
        let mut reader = Reader::new();
        let mut state = 1_u32;
        for _ in 0..200_000 {
            state = state.wrapping_mul(1_664_525).wrapping_add(1_013_904_223);
            reader.feed(0x40 | (state >> 26) as u8).unwrap();
            assert!(reader.end - reader.start <= MOST_HELD);
            if reader.waits() {
                reader.take().unwrap();
            }
        }
    }
}
