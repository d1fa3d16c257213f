//! The journal: one record is the mark, one byte N and, for each of the N + 2
//! words, its data in three bytes, the highest bits first; no parity.

use crate::frame::{check_frame, n_of, preamble_is_right, Frame, MOST_WORDS};
use crate::refusal::{refuse_if, Answer, Refusal};

/// The two bytes every record starts with.
pub const MARK: [u8; 2] = [0x52, 0x32];

/// Length of a record of a frame with N data words.
pub fn length_for(n: usize) -> usize {
    3 * n + 9
}

/// Writes a frame's record to the buffer and answers its length; the record has no
/// place for the carried bits. Refuses with 5, 13.
pub fn keep(frame: &Frame, buffer: &mut [u8]) -> Answer<usize> {
    check_frame(frame)?;
    let length = length_for(usize::from(frame.n));
    refuse_if(buffer.len() < length, Refusal::BufferTooShort)?;
    buffer[..2].copy_from_slice(&MARK);
    buffer[2] = frame.n;
    for (i, word) in frame.all_words().iter().enumerate() {
        let at = 3 + 3 * i;
        buffer[at..at + 3].copy_from_slice(&word.to_be_bytes()[1..]);
    }
    Ok(length)
}

/// Reads the record at the start of the bytes and answers the frame, after 00, and
/// the record's length. Refuses with 14, 15, 16, 15, 16.
pub fn recall(bytes: &[u8]) -> Answer<(Frame, usize)> {
    refuse_if(!bytes.starts_with(&MARK), Refusal::NoJournalMark)?;
    let n = *bytes.get(2).ok_or(Refusal::RecordCutShort)?;
    refuse_if(usize::from(n) > MOST_WORDS, Refusal::JournalHeader)?;
    let length = length_for(usize::from(n));
    let record = bytes.get(..length).ok_or(Refusal::RecordCutShort)?;
    let all: Vec<u32> = record[3..].chunks_exact(3).map(word_of).collect();
    let agrees = preamble_is_right(all[0]) && n_of(all[1]) == n;
    refuse_if(!agrees, Refusal::JournalHeader)?;
    Ok((Frame::of_words(&all), length))
}

/// The word of three bytes, highest bits first.
fn word_of(three: &[u8]) -> u32 {
    three
        .iter()
        .fold(0, |sum, byte| sum << 8 | u32::from(*byte))
}
