//! Records of the journal that keeps the words, to and from those that pass for
//! frames; and the mender, a step at a time.

use super::{frame_in, keep_frame, numbered};
use crate::frame::CarriedBits;
use crate::mender::{self, Step};
use crate::refusal::{refuse_if, Answer, Refusal};
use crate::word_journal;

/// Keeps the words of a frame from these two bits on. Refuses with 14, 15, 16, 15,
/// 16, 5, 13.
pub fn keep_words(frame: &[u8], d29: u8, d30: u8, words: &mut [u8], length: &mut usize) -> u8 {
    let kept = frame_in(frame).and_then(|frame| {
        let live = frame.after(CarriedBits { d29, d30 });
        word_journal::keep(&live, words)
    });
    numbered(kept.map(|written| *length = written))
}

/// What `recall_words` sets beside the frame's record.
pub struct Recalling<'a> {
    /// D29* of the first word.
    pub d29: &'a mut u8,
    /// D30* of the first word.
    pub d30: &'a mut u8,
    /// Length of the record read.
    pub read: &'a mut usize,
    /// Length of the record written.
    pub length: &'a mut usize,
}

/// Recalls the record of words at the start of the bytes. Refuses with 14, 15, 16,
/// 15, 16, 17, 13.
pub fn recall_words(words: &[u8], frame: &mut [u8], into: Recalling) -> u8 {
    numbered(recalled(words, frame, into))
}

fn recalled(words: &[u8], frame: &mut [u8], into: Recalling) -> Answer<()> {
    let (found, read) = word_journal::recall(words)?;
    keep_frame(&found, frame, into.length)?;
    *into.read = read;
    *into.d29 = found.carried.d29;
    *into.d30 = found.carried.d30;
    Ok(())
}

/// The longest report of a step: a line for each of 33 words and for N, each of an
/// offset of 20 digits and two numbers of three.
pub const REPORT_MAX: usize = 34 * 29;

/// What `mend` sets beside the bytes and their report.
pub struct Mending<'a> {
    /// 0 the end, 1 whole, 2 lost, 3 cut short, 4 without N, 5 passed over.
    pub step: &'a mut u8,
    /// Bytes that the step is done with.
    pub read: &'a mut usize,
    /// Bytes of the report.
    pub written: &'a mut usize,
}

/// Makes the step at the start of the bytes, which stand at an offset of the journal.
/// Refuses with 13.
pub fn mend(bytes: &mut [u8], at: u64, searching: u8, report: &mut [u8], into: Mending) -> u8 {
    numbered(mended(bytes, at, searching, report, into))
}

fn mended(
    bytes: &mut [u8],
    at: u64,
    searching: u8,
    report: &mut [u8],
    into: Mending,
) -> Answer<()> {
    refuse_if(report.len() < REPORT_MAX, Refusal::BufferTooShort)?;
    let step = mender::step(bytes, searching != 0);
    let text = match &step {
        Step::Whole(record) => changes(bytes, record, at),
        Step::Lost(_) | Step::Cut | Step::Numberless => format!("lost {at}\n"),
        Step::Passed | Step::End => String::new(),
    };
    if let Step::Whole(record) = &step {
        bytes[..record.len()].copy_from_slice(record);
    }
    report[..text.len()].copy_from_slice(text.as_bytes());
    *into.written = text.len();
    (*into.step, *into.read) = match step {
        Step::End => (0, 0),
        Step::Whole(record) => (1, record.len()),
        Step::Lost(length) => (2, length),
        Step::Cut => (3, bytes.len()),
        Step::Numberless => (4, 1),
        Step::Passed => (5, 1),
    };
    Ok(())
}

/// A line for each byte that differs: its offset modulo 2^64, old, new.
fn changes(before: &[u8], after: &[u8], at: u64) -> String {
    let mut text = String::new();
    for (place, (old, new)) in before.iter().zip(after).enumerate() {
        if old != new {
            text += &format!("{} {old} {new}\n", at.wrapping_add(place as u64));
        }
    }
    text
}
