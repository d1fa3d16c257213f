//! A line read to its end, frame by frame.

use crate::fault::Fault;
use rtcm2::{room_for, Counts, PushReader, Taken, Turns};
use std::io::{self, ErrorKind, Read};
use std::iter;

/// What is done with the frames of a line.
pub trait Taker {
    /// A frame was handed out.
    fn take(&mut self, taken: Taken) -> Result<(), Fault>;

    /// All frames of the bytes that have come were handed out: more are read now, or the line ended.
    fn pause(&mut self) -> Result<(), Fault>;
}

/// What a line came to.
pub struct Ended {
    /// How many bytes were read.
    pub bytes: u64,
    /// How many of them carry no line bits.
    pub passed: u64,
    /// How words failed.
    pub counts: Counts,
    /// Whether reading failed.
    pub read: io::Result<()>,
}

/// A reader with room for every frame that a read of so many bytes can bring, so that each read is one
/// call of the library and leaves no frame waiting.
pub struct Hearer {
    reader: PushReader,
    rows: Vec<u8>,
}

impl Hearer {
    /// A fresh one, for reads of so many bytes at most.
    pub fn new(most: usize) -> Hearer {
        Hearer { reader: PushReader::new(), rows: vec![0; room_for(most)] }
    }

    /// What the bytes of a read brought.
    pub fn read(&mut self, bytes: &[u8]) -> Turns<'_> {
        let turns = self.reader.read(bytes, &mut self.rows).expect("the line goes on, and there is room for a row");
        assert_eq!(turns.used, bytes.len(), "there is room for every frame");
        turns
    }

    /// The frames that the end of the line releases.
    pub fn end(&mut self) -> impl Iterator<Item = Taken> + '_ {
        self.reader.end().expect("no frame waits, and the line goes on");
        iter::from_fn(|| self.reader.take())
    }
}

/// Bytes of a read at most.
const MOST: usize = 16384;

/// Hands out every frame of a line, each as soon as it stands; those too that the end releases, also
/// where reading failed.
pub fn each_frame(mut line: impl Read, taker: &mut impl Taker) -> Result<Ended, Fault> {
    let (mut hearer, mut buffer) = (Hearer::new(MOST), vec![0; MOST]);
    let (mut bytes, mut passed) = (0, 0);
    let read = loop {
        match line.read(&mut buffer) {
            Ok(0) => break Ok(()),
            Ok(size) => {
                let turns = hearer.read(&buffer[..size]);
                bytes += size as u64;
                passed += turns.passed as u64;
                hand_out(taker, turns.frames)?;
            }
            Err(error) if error.kind() == ErrorKind::Interrupted => {}
            Err(error) => break Err(error),
        }
    };
    hand_out(taker, hearer.end())?;
    Ok(Ended { bytes, passed, counts: hearer.reader.counts(), read })
}

/// All frames that have come, and the pause behind them.
fn hand_out(taker: &mut impl Taker, mut frames: impl Iterator<Item = Taken>) -> Result<(), Fault> {
    frames.try_for_each(|taken| taker.take(taken))?;
    taker.pause()
}
