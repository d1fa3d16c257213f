//! The calls of the list layouts, `rtcm2_count_..`, `rtcm2_.._at` and `rtcm2_make_..`, for
//! every one of them. An entry is a row of bytes; where the systems differ, a byte holds
//! the bits as sent.

use super::{frame_in, keep_frame, numbered, Head};
use crate::record::list::List;
use crate::refusal::{Answer, Refusal};

/// Number of entries. Refuses with 14, 15, 16, 15, 16, 6, 7, 8.
pub fn count<L: List>(frame: &[u8], count: &mut usize) -> u8 {
    let counted = frame_in(frame).and_then(|frame| L::count(&frame));
    numbered(counted.map(|found| *count = found))
}

/// One entry. Refuses with 14, 15, 16, 15, 16, 6, 7, 8, 9, 10, 13.
pub fn at<L: List>(frame: &[u8], index: usize, row: &mut [u8]) -> u8 {
    let found = frame_in(frame).and_then(|frame| L::entry(&frame, index));
    numbered(found.and_then(|entry| put_row(&entry.row(), row)))
}

/// Makes a frame. Refuses with 5, 6, 7, 12, 10, 13.
pub fn make<L: List>(head: Head, rows: &[u8], frame: &mut [u8], length: &mut usize) -> u8 {
    numbered(made::<L>(head, rows, frame, length))
}

fn made<L: List>(head: Head, rows: &[u8], frame: &mut [u8], length: &mut usize) -> Answer<()> {
    let (entries, count) = (L::of_rows(head.kind.into(), rows), row_count(rows, L::SIZE));
    let made = L::make(&head.header()?, &entries, count)?;
    keep_frame(&made, frame, length)
}

/// Rows in the bytes; none where they are no whole number of rows.
pub(super) fn row_count(rows: &[u8], size: usize) -> usize {
    if rows.len().is_multiple_of(size) {
        rows.len() / size
    } else {
        0
    }
}

/// Puts a row into the first of the lent bytes. Refuses with 13.
pub(super) fn put_row(row: &[u8], lent: &mut [u8]) -> Answer<()> {
    let place = lent.get_mut(..row.len()).ok_or(Refusal::BufferTooShort)?;
    place.copy_from_slice(row);
    Ok(())
}
