//! The small-beacon profile: the checker, and the sender's side.

use super::lists::row_count;
use super::{frame_in, numbered, Head};
use crate::record::correction::Correction;
use crate::record::list::List;
use crate::refusal::{refuse_if, Answer, Refusal};
use crate::{journal, profile};

/// Checks a frame. Refuses with 14, 15, 16, 15, 16, 7, 20, 8, 10, 11, 21, 22.
pub fn check_profile(frame: &[u8]) -> u8 {
    numbered(frame_in(frame).and_then(|frame| profile::check(&frame)))
}

/// Cuts corrections into frames of type 9, their records one after the other. Refuses
/// with 5, 6, 7, 12, 10, 22, 13.
pub fn cut_corrections(head: Head, rows: &[u8], frames: &mut [u8], length: &mut usize) -> u8 {
    numbered(corrections_cut(head, rows, frames, length))
}

fn corrections_cut(head: Head, rows: &[u8], frames: &mut [u8], length: &mut usize) -> Answer<()> {
    let entries = Correction::of_rows(head.kind.into(), rows);
    let count = row_count(rows, Correction::SIZE);
    let mut records = Vec::new();
    for frame in profile::cut(&head.header()?, &entries, count)? {
        let mut buffer = [0; 102];
        let length = journal::keep(&frame, &mut buffer)?;
        records.extend(&buffer[..length]);
    }
    refuse_if(frames.len() < records.len(), Refusal::BufferTooShort)?;
    frames[..records.len()].copy_from_slice(&records);
    *length = records.len();
    Ok(())
}
