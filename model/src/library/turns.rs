//! Reading in one call: bytes are fed and frames taken in turns, each frame put into
//! a row of lent bytes.

use super::line::changed;
use super::numbered;
use super::state::State;
use crate::journal;
use crate::reader::Taken;
use crate::refusal::{refuse_if, Answer, Refusal};

/// Bytes of a row: the position, D29*, D30*, and room for the longest record.
pub const ROW: usize = 108;

/// What `read` sets beside the state and the rows.
pub struct Reading<'a> {
    /// Bytes fed.
    pub used: &'a mut usize,
    /// Bytes among them that carry no bit.
    pub passed: &'a mut usize,
    /// Rows put.
    pub count: &'a mut usize,
}

/// Feeds and takes in turns, as often as there is room for a row. Refuses with 5, 3,
/// 13.
pub fn read(state: &mut [u8], bytes: &[u8], rows: &mut [u8], into: Reading) -> u8 {
    numbered(changed(state, |reader| {
        check(reader)?;
        refuse_if(rows.len() < ROW, Refusal::BufferTooShort)?;
        in_turns(reader, bytes, rows, into)
    }))
}

/// Refuses a reader that can't go on with 5, and one that has ended with 3.
fn check(reader: &State) -> Answer<()> {
    reader.check_counts()?;
    refuse_if(reader.waits && !reader.stands(), Refusal::OutsideWidths)?;
    refuse_if(reader.ended, Refusal::AfterEnd)
}

/// A turn for each row: the bytes left are fed where no frame waits, then the frame
/// that waits is taken. Without one the turns end.
fn in_turns(reader: &mut State, bytes: &[u8], rows: &mut [u8], into: Reading) -> Answer<()> {
    let (mut used, mut passed, mut count) = (0, 0, 0);
    for row in rows.chunks_exact_mut(ROW) {
        if !reader.waits {
            let fed = reader.feed_all(&bytes[used..])?;
            used += fed.used;
            passed += fed.passed;
        }
        let Ok(taken) = reader.take() else { break };
        put_row(&taken, row)?;
        count += 1;
    }
    (*into.used, *into.passed, *into.count) = (used, passed, count);
    Ok(())
}

/// Puts a frame into its row; what is behind its record stays.
fn put_row(taken: &Taken, row: &mut [u8]) -> Answer<()> {
    row[..4].copy_from_slice(&taken.position.to_le_bytes());
    row[4] = taken.frame.carried.d29;
    row[5] = taken.frame.carried.d30;
    journal::keep(&taken.frame, &mut row[6..]).map(|_| ())
}
