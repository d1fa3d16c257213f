//! Journals: the frames of a line on disk, in two forms. The first keeps the data of each word, the
//! second the words themselves, so that what a disk altered is seen.

use crate::frame::{Frame, Pair, WORDS_MOST};
use crate::list::Bytes;
use crate::Refusal;

/// What a record keeps of a word.
#[derive(Clone, Copy, Debug, PartialEq, Eq, Hash)]
pub enum Form {
    /// Its 24 data bits: mark 52 32.
    Data,
    /// Its thirty bits and the two before them: mark 52 34.
    Words,
}

/// A record of a journal.
#[derive(Clone, Copy, Debug, PartialEq, Eq, Hash)]
pub struct Kept {
    /// The place of its first byte in the journal.
    pub at: u64,
    /// Its form.
    pub form: Form,
    /// Its frame.
    pub frame: Frame,
    /// The two bits before the frame; 00 where the form does not keep them.
    pub pair: Pair,
    /// How many bytes it has.
    pub length: usize,
}

/// The record of a form at the start of the bytes, which stand at a place of a journal. Refused with
/// 14, also for the other form, 15, 16 or 17.
pub fn recall_as(form: Form, bytes: &[u8], at: u64) -> Result<Kept, Refusal> {
    let (frame, pair, length) = match form {
        Form::Words => Frame::recall_words(bytes)?,
        Form::Data => {
            let frame = Frame::recall(bytes)?;
            (frame, Pair::default(), frame.as_bytes().len())
        }
    };
    Ok(Kept { at, form, frame, pair, length })
}

/// The record of either form at the start of the bytes. Refused with 14, 15, 16 or 17.
pub fn recall(bytes: &[u8], at: u64) -> Result<Kept, Refusal> {
    match recall_as(Form::Words, bytes, at) {
        Err(Refusal::NoMark) => recall_as(Form::Data, bytes, at),
        recalled => recalled,
    }
}

impl Kept {
    /// The record of the other form: with words it starts from 00, without them its pair is left out.
    pub fn moved(&self) -> Bytes<WORDS_MOST> {
        match self.form {
            Form::Data => self.frame.words(Pair::default()),
            Form::Words => Bytes::of(self.frame.as_bytes()),
        }
    }
}

#[cfg(feature = "std")]
pub use over_read::{Journal, Unread};

#[cfg(feature = "std")]
mod over_read {
    use super::{recall, recall_as, Form, Kept};
    use crate::Refusal;
    use std::error::Error;
    use std::fmt::{self, Display, Formatter};
    use std::io::{self, ErrorKind, Read};
    use std::vec;
    use std::vec::Vec;

    /// No record is longer.
    const LONGEST: usize = crate::frame::WORDS_MOST;

    /// Why a journal is not read on.
    #[derive(Debug)]
    pub enum Unread {
        /// The record at this place is refused.
        Refused(u64, Refusal),
        /// Reading failed behind so many bytes.
        Failed(u64, io::Error),
    }

    impl Display for Unread {
        fn fmt(&self, to: &mut Formatter) -> fmt::Result {
            match self {
                Unread::Refused(at, refusal) => write!(to, "byte {at}: {refusal}"),
                Unread::Failed(at, error) => write!(to, "byte {at}: {error}"),
            }
        }
    }

    impl Error for Unread {}

    /// An iterator over the records of a journal that is read. It ends behind the last record, or after
    /// the first that can't be read.
    pub struct Journal<R> {
        input: R,
        form: Option<Form>,
        buffer: Vec<u8>,
        next: usize,
        held: usize,
        at: u64,
        is_whole: bool,
        is_over: bool,
        failure: Option<io::Error>,
    }

    impl<R: Read> Journal<R> {
        /// A journal with records of either form.
        pub fn new(input: R) -> Journal<R> {
            Journal::with(input, None)
        }

        /// A journal of one form: a record of the other is 14.
        pub fn of(form: Form, input: R) -> Journal<R> {
            Journal::with(input, Some(form))
        }

        fn with(input: R, form: Option<Form>) -> Journal<R> {
            Journal {
                input,
                form,
                buffer: vec![0; 65536],
                next: 0,
                held: 0,
                at: 0,
                is_whole: false,
                is_over: false,
                failure: None,
            }
        }

        /// Room for the longest record behind the bytes held, and more bytes there.
        fn refill(&mut self) {
            self.buffer.copy_within(self.next..self.held, 0);
            (self.next, self.held) = (0, self.held - self.next);
            match self.input.read(&mut self.buffer[self.held..]) {
                Ok(0) => self.is_whole = true,
                Ok(more) => self.held += more,
                Err(error) if error.kind() == ErrorKind::Interrupted => {}
                Err(error) => {
                    self.is_whole = true;
                    self.failure = Some(error);
                }
            }
        }

        /// The end: what is left of it, if it is not well.
        fn over(&mut self, amiss: Option<Refusal>) -> Option<Result<Kept, Unread>> {
            self.is_over = true;
            match (self.failure.take(), amiss) {
                (Some(error), _) => Some(Err(Unread::Failed(self.at + (self.held - self.next) as u64, error))),
                (None, amiss) => amiss.map(|refusal| Err(Unread::Refused(self.at, refusal))),
            }
        }
    }

    impl<R: Read> Iterator for Journal<R> {
        type Item = Result<Kept, Unread>;

        fn next(&mut self) -> Option<Result<Kept, Unread>> {
            while !self.is_over {
                let bytes = &self.buffer[self.next..self.held];
                let recalled = match self.form {
                    Some(form) => recall_as(form, bytes, self.at),
                    None => recall(bytes, self.at),
                };
                match recalled {
                    Ok(kept) => {
                        self.next += kept.length;
                        self.at += kept.length as u64;
                        return Some(Ok(kept));
                    }
                    // Fewer bytes than a record has say nothing before the end.
                    Err(_) if bytes.len() < LONGEST && !self.is_whole => self.refill(),
                    Err(_) if bytes.is_empty() => return self.over(None),
                    Err(refusal) => return self.over(Some(refusal)),
                }
            }
            None
        }
    }
}
