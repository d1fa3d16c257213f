//! Line bytes to frames: pushed as they come, or read from anything that can be read.

use crate::ffi;
use crate::frame::{Frame, Pair, RECORD_MOST};
use crate::list::Bytes;
use crate::Refusal;

const STATE_SIZE: usize = 196;

/// Bytes of a row that [`PushReader::read`] leaves: a frame's position, its pair and its record.
pub const READ_ROW: usize = 6 + RECORD_MOST;

/// Room that one call of [`PushReader::read`] with so many bytes never fills, whatever was read before:
/// a reader holds at most 997 line bits, a byte has six, and no frame has fewer than sixty.
pub const fn room_for(bytes: usize) -> usize {
    READ_ROW * ((997 + 6 * bytes) / 60 + 1)
}

/// A frame taken from a line.
#[derive(Clone, Copy, Debug, PartialEq, Eq, Hash)]
pub struct Taken {
    /// The frame.
    pub frame: Frame,
    /// The position of its first bit in the line bits, modulo 2^32.
    pub at: u32,
    /// The two line bits before it.
    pub pair: Pair,
}

/// What a call of [`PushReader::read`] did.
#[derive(Clone, Debug)]
pub struct Turns<'a> {
    /// How many bytes were fed.
    pub used: usize,
    /// How many of them carry no line bits.
    pub passed: usize,
    /// The frames that came of them.
    pub frames: Frames<'a>,
}

/// The frames in rows that a call of [`PushReader::read`] left, in the order of the line.
#[derive(Clone, Debug)]
pub struct Frames<'a> {
    rows: core::slice::ChunksExact<'a, u8>,
}

impl Iterator for Frames<'_> {
    type Item = Taken;

    fn next(&mut self) -> Option<Taken> {
        self.rows.next().map(taken_of)
    }

    fn size_hint(&self) -> (usize, Option<usize>) {
        self.rows.size_hint()
    }
}

impl ExactSizeIterator for Frames<'_> {}

/// The frame of a row that the library has put.
fn taken_of(row: &[u8]) -> Taken {
    let at = u32::from_le_bytes([row[0], row[1], row[2], row[3]]);
    let frame = Frame::recall(&row[6..]).expect("a frame that was taken is recalled");
    Taken { frame, at, pair: Pair::of(row[4], row[5]) }
}

/// How many positions of a line a word ruled out, by the ones in its remainder; each modulo 2^32. An
/// odd number of ones is an odd number of turned bits.
#[derive(Clone, Copy, Debug, Default, PartialEq, Eq, Hash)]
pub struct Counts {
    /// Remainders with an odd number of ones.
    pub odd: u32,
    /// Remainders with an even number of ones, not none.
    pub even: u32,
}

/// A reader to which the bytes of a line are pushed. It needs no allocator and no system.
#[derive(Clone)]
pub struct PushReader {
    state: [u8; STATE_SIZE],
    ended: bool,
}

impl Default for PushReader {
    fn default() -> PushReader {
        PushReader::new()
    }
}

impl PushReader {
    /// A reader started fresh.
    pub fn new() -> PushReader {
        let mut state = [0; STATE_SIZE];
        assert_eq!(ffi::rtcm2_state_size(), STATE_SIZE, "librtcm2.a is of another version");
        ffi::rtcm2_start(&mut state).expect("there is room");
        PushReader { state, ended: false }
    }

    /// Pushes bytes of the line, and hands out each frame as soon as it stands. The answer is how
    /// many of the bytes carry no line bits. After the end nothing is pushed, and none are passed.
    pub fn push(&mut self, mut bytes: &[u8], mut each: impl FnMut(Taken)) -> usize {
        const ROOM: usize = room_for(1);
        let (mut rows, mut all_passed, mut is_full) = ([0; ROOM], 0, true);
        while is_full && !self.ended {
            let Turns { used, passed, frames } =
                self.read(bytes, &mut rows).expect("there is room, and the line goes on");
            bytes = &bytes[used..];
            all_passed += passed;
            is_full = frames.len() == ROOM / READ_ROW;
            frames.for_each(&mut each);
        }
        all_passed
    }

    /// Feeds bytes and takes frames in turns, a frame that waits first, in one call of the library: the
    /// frames lie in `rows`, [`READ_ROW`] bytes each. Where there are fewer frames than rows, all bytes were
    /// used and none waits, so that room of [`room_for`] the bytes makes it one call for each read. Else
    /// the rest of the bytes is for the next call. Refused with 3 after the end, with 13 where there is
    /// no room for a row.
    ///
    /// ```
    /// use rtcm2::{room_for, PushReader};
    ///
    /// let line = [0x40, 0x66, 0x61, 0x41, 0x68, 0x7F, 0x7F, 0x6C, 0x73, 0x7F, 0x44];
    /// let (mut reader, mut rows) = (PushReader::new(), [0; room_for(11)]);
    /// let read = reader.read(&line, &mut rows)?;
    /// assert_eq!((read.used, read.passed), (11, 0));
    /// for taken in read.frames {
    ///     assert_eq!((taken.at, taken.frame.header().station), (6, 5));
    /// }
    /// # Ok::<(), rtcm2::Refusal>(())
    /// ```
    pub fn read<'a>(&mut self, bytes: &[u8], rows: &'a mut [u8]) -> Result<Turns<'a>, Refusal> {
        let (mut used, mut passed, mut count) = (0, 0, 0);
        ffi::rtcm2_read(&mut self.state, bytes, rows, &mut used, &mut passed, &mut count)?;
        Ok(Turns { used, passed, frames: Frames { rows: rows[..READ_ROW * count].chunks_exact(READ_ROW) } })
    }

    /// The line has ended: hands out the frames that this releases.
    pub fn finish(&mut self, mut each: impl FnMut(Taken)) {
        if !self.ended {
            self.end().expect("no frame waits, and the line goes on");
        }
        self.take_all(&mut each);
    }

    /// Feeds bytes until a frame waits or none is left; how many were used, and how many of these
    /// carry no line bits. Refused with 3 after the end, with 2 while a frame waits.
    pub fn feed_all(&mut self, bytes: &[u8]) -> Result<(usize, usize), Refusal> {
        let (mut used, mut passed) = (0, 0);
        ffi::rtcm2_feed_all(&mut self.state, bytes, &mut used, &mut passed)?;
        Ok((used, passed))
    }

    /// Feeds one byte. Refused with 3 after the end, with 2 while a frame waits, and with 1 where the
    /// byte carries no line bits; it may then be passed over.
    pub fn feed(&mut self, byte: u8) -> Result<(), Refusal> {
        ffi::rtcm2_feed(&mut self.state, byte)
    }

    /// The line has ended; frames may wait now. Refused with 3 after the end, with 2 while a frame waits.
    pub fn end(&mut self) -> Result<(), Refusal> {
        ffi::rtcm2_end(&mut self.state)?;
        self.ended = true;
        Ok(())
    }

    /// Takes the frame that waits, if one does.
    pub fn take(&mut self) -> Option<Taken> {
        let (mut at, mut d29, mut d30) = (0, 0, 0);
        let record: Result<Bytes<RECORD_MOST>, _> =
            Bytes::filled(|frame, length| ffi::rtcm2_take(&mut self.state, frame, length, &mut at, &mut d29, &mut d30));
        let frame = Frame::recall(&record.ok()?).expect("a frame that was taken is recalled");
        Some(Taken { frame, at, pair: Pair::of(d29, d30) })
    }

    /// How words failed so far.
    pub fn counts(&self) -> Counts {
        let mut counts = Counts::default();
        ffi::rtcm2_counts(&self.state, &mut counts.odd, &mut counts.even).expect("the state was started");
        counts
    }

    fn take_all(&mut self, each: &mut impl FnMut(Taken)) {
        while let Some(taken) = self.take() {
            each(taken);
        }
    }
}

#[cfg(feature = "std")]
pub use over_read::Reader;

#[cfg(feature = "std")]
mod over_read {
    use super::{room_for, taken_of, Counts, PushReader, Taken, Turns, READ_ROW};
    use std::io::{self, ErrorKind, Read};
    use std::vec;
    use std::vec::Vec;

    /// Bytes of a read at most.
    const MOST: usize = 16384;

    /// An iterator over the frames of a line that is read. A frame is handed out as soon as the bytes
    /// that have come hold it: no read waits for more than it needs, and each is one call of the library.
    /// Where reading fails, the frames that the end releases come first, then the error, and then nothing
    /// more.
    pub struct Reader<R> {
        input: R,
        push: PushReader,
        buffer: Vec<u8>,
        /// The frames of the last read, those from `next` on not yet handed out.
        rows: Vec<u8>,
        next: usize,
        count: usize,
        bytes: u64,
        passed: u64,
        is_over: bool,
        failure: Option<io::Error>,
    }

    impl<R: Read> Reader<R> {
        /// A reader of a line.
        pub fn new(input: R) -> Reader<R> {
            Reader {
                input,
                push: PushReader::new(),
                buffer: vec![0; MOST],
                rows: vec![0; room_for(MOST)],
                next: 0,
                count: 0,
                bytes: 0,
                passed: 0,
                is_over: false,
                failure: None,
            }
        }

        /// How many bytes were read so far, those too whose frames are not yet handed out.
        pub fn bytes(&self) -> u64 {
            self.bytes
        }

        /// How many of them carry no line bits.
        pub fn passed(&self) -> u64 {
            self.passed
        }

        /// How words failed in these bytes.
        pub fn counts(&self) -> Counts {
            self.push.counts()
        }

        /// What is read.
        pub fn get_mut(&mut self) -> &mut R {
            &mut self.input
        }

        /// Reads once; where nothing comes, the line has ended.
        fn refill(&mut self) {
            match self.input.read(&mut self.buffer) {
                Ok(0) => self.is_over = true,
                Ok(size) => self.feed(size),
                Err(error) if error.kind() == ErrorKind::Interrupted => {}
                Err(error) => {
                    self.is_over = true;
                    self.failure = Some(error);
                }
            }
            if self.is_over {
                self.push.end().expect("no frame waits, and the line goes on");
            }
        }

        /// Feeds what was read, and holds its frames.
        fn feed(&mut self, size: usize) {
            let read = self.push.read(&self.buffer[..size], &mut self.rows);
            let Turns { used, passed, frames } = read.expect("the line goes on, and there is room");
            assert_eq!(used, size, "there is room for every frame");
            (self.next, self.count) = (0, frames.len());
            self.bytes += used as u64;
            self.passed += passed as u64;
        }
    }

    impl<R: Read> Iterator for Reader<R> {
        type Item = io::Result<Taken>;

        fn next(&mut self) -> Option<io::Result<Taken>> {
            while self.next == self.count && !self.is_over {
                self.refill();
            }
            if self.next < self.count {
                let row = &self.rows[READ_ROW * self.next..READ_ROW * (self.next + 1)];
                self.next += 1;
                return Some(Ok(taken_of(row)));
            }
            match self.push.take() {
                Some(released) => Some(Ok(released)),
                None => self.failure.take().map(Err),
            }
        }
    }
}
