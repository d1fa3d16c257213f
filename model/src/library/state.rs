//! A reader's state as 196 lent bytes, and the calls on it, forged states too: the
//! words that it says are known right are believed, a frame that waits is not.

use crate::counts::Counts;
use crate::frame::Frame;
use crate::line::is_data_byte;
use crate::reader::{Fed, Taken};
use crate::refusal::{refuse_if, Answer, Refusal};
use crate::window;

/// Bytes of a state.
pub const SIZE: usize = 196;

/// The number that a state begins with: the bytes "R2S2". Before the counters it was
/// "R2S1".
pub const MARK: u32 = 0x3253_3252;

/// Cells of 32 bits, the highest bit of a cell first.
pub const CELLS: usize = 40;

/// Bits of all cells.
pub const ROOM: usize = 32 * CELLS;

/// Most bits held with none waiting, and with a frame that waits.
pub const MOST_HELD: [usize; 2] = [991, 997];

/// Most words known right.
pub const MOST_WORDS: usize = 32;

/// The numbers of a state.
#[derive(Clone, Debug, PartialEq, Eq)]
pub struct State {
    /// Where in the cells the bits held end.
    pub end: usize,
    /// How many bits are held.
    pub held: usize,
    /// Words of the position looked at that are known right.
    pub words: usize,
    /// That position, modulo 2^32.
    pub at: u32,
    /// Whether a frame waits there.
    pub waits: bool,
    /// Whether the input has ended.
    pub ended: bool,
    /// Positions that a word ruled out; any numbers are believed.
    pub counts: Counts,
    /// The bits.
    pub cells: [u32; CELLS],
}

impl State {
    /// A reader started fresh: the hunt starts at position 2.
    pub fn fresh() -> State {
        State {
            end: 0,
            held: 0,
            words: 0,
            at: 2,
            waits: false,
            ended: false,
            counts: Counts::default(),
            cells: [0; CELLS],
        }
    }

    /// The state that the bytes hold. Refuses bytes that hold none with 5.
    pub fn read(bytes: &[u8]) -> Answer<State> {
        let bytes = bytes.get(..SIZE).ok_or(Refusal::OutsideWidths)?;
        let number = |i: usize| u32::from_le_bytes(bytes[4 * i..4 * i + 4].try_into().unwrap());
        let known = number(0) == MARK && number(5) <= 1 && number(6) <= 1;
        refuse_if(!known, Refusal::OutsideWidths)?;
        Ok(State {
            end: number(1) as usize,
            held: number(2) as usize,
            words: number(3) as usize,
            at: number(4),
            waits: number(5) == 1,
            ended: number(6) == 1,
            counts: Counts {
                odd: number(7),
                even: number(8),
            },
            cells: std::array::from_fn(|i| number(9 + i)),
        })
    }

    /// Puts the state into the first bytes, of which there are enough.
    pub fn put(&self, bytes: &mut [u8]) {
        let counts = [
            self.end as u32,
            self.held as u32,
            self.words as u32,
            self.at,
        ];
        let flags = [u32::from(self.waits), u32::from(self.ended)];
        let ruled_out = [self.counts.odd, self.counts.even];
        let start = [MARK].into_iter().chain(counts).chain(flags);
        let numbers = start.chain(ruled_out).chain(self.cells);
        for (i, number) in numbers.enumerate() {
            bytes[4 * i..4 * i + 4].copy_from_slice(&number.to_le_bytes());
        }
    }

    /// Feeds a byte. Refuses with 5, 3, 2, 1.
    pub fn feed(&mut self, byte: u8) -> Answer<()> {
        self.check_open()?;
        refuse_if(!is_data_byte(byte), Refusal::NotDataByte)?;
        self.step(byte);
        Ok(())
    }

    /// Feeds bytes until a frame waits or none is left. Refuses with 5, 3, 2.
    pub fn feed_all(&mut self, bytes: &[u8]) -> Answer<Fed> {
        self.check_open()?;
        let mut fed = Fed { used: 0, passed: 0 };
        while fed.used < bytes.len() && !self.waits {
            let byte = bytes[fed.used];
            fed.used += 1;
            if is_data_byte(byte) {
                self.step(byte);
            } else {
                fed.passed += 1;
            }
        }
        Ok(fed)
    }

    /// Ends the input. Refuses with 5, 3, 2.
    pub fn finish(&mut self) -> Answer<()> {
        self.check_open()?;
        self.ended = true;
        self.hunt();
        Ok(())
    }

    /// Takes the frame that waits, if one stands. Refuses with 5, 4.
    pub fn take(&mut self) -> Answer<Taken> {
        self.check_counts()?;
        refuse_if(!(self.waits && self.stands()), Refusal::NoFrameWaits)?;
        let size = self.size();
        let words: Vec<u32> = (0..size).map(|k| window::data(self.word(k))).collect();
        let taken = Taken {
            position: self.at,
            frame: Frame::of_words(&words).after(window::carried(self.word(0))),
        };
        self.leave(30 * size);
        self.words = 0;
        self.hunt();
        Ok(taken)
    }

    /// The refusals that feeding and ending share.
    fn check_open(&self) -> Answer<()> {
        self.check_counts()?;
        refuse_if(self.ended, Refusal::AfterEnd)?;
        refuse_if(self.waits, Refusal::FrameWaits)
    }

    /// Refuses counts that go past what a reader can hold.
    pub(super) fn check_counts(&self) -> Answer<()> {
        let past = self.end > ROOM
            || self.end < self.held
            || self.held > MOST_HELD[usize::from(self.waits)]
            || self.words > MOST_WORDS
            || self.words > 0 && self.held < 2 + 30 * self.words;
        refuse_if(past, Refusal::OutsideWidths)
    }
}
