//! Types 16 and 36: text of 1 to 90 characters, three a word; zeros close the last
//! word. Type 36 also has the Russian letters.

use super::fields::{Fields, Layer};
use super::{begin_making, begin_reading, Layout};
use crate::frame::{Frame, Header};
use crate::refusal::{refuse_if, Answer, Refusal};

/// Most characters in a frame.
pub const MOST: usize = 90;

/// The last code that a type allows; the first is 1.
pub fn last_code(type_number: u16) -> u8 {
    match type_number {
        36 => 191,
        _ => 127,
    }
}

/// Refuses text with a character that its type does not allow.
fn check_characters(text: &[u8], type_number: u16) -> Answer<()> {
    let codes = 1..=last_code(type_number);
    let allowed = text.iter().all(|code| codes.contains(code));
    refuse_if(!allowed, Refusal::ForbiddenCharacter)
}

/// Reads the text into the buffer and answers its length; the rest of the
/// buffer stays. Refuses with 5, 6, 7, 8, 11, 13.
pub fn read(frame: &Frame, buffer: &mut [u8]) -> Answer<usize> {
    begin_reading(frame, Layout::Text)?;
    refuse_if(!(1..=30).contains(&frame.n), Refusal::NDoesNotFit)?;
    let mut fields = Fields::from(frame, 0);
    let mut text: Vec<u8> = Vec::new();
    for _ in 0..3 * frame.n {
        text.push(fields.unsigned(8) as u8);
    }
    for _ in 0..2 {
        if text.last() == Some(&0) {
            text.pop();
        }
    }
    check_characters(&text, frame.header.type_number)?;
    refuse_if(buffer.len() < text.len(), Refusal::BufferTooShort)?;
    buffer[..text.len()].copy_from_slice(&text);
    Ok(text.len())
}

/// The frame of a text. Refuses with 5, 6, 7, 12, 11.
pub fn make(header: &Header, text: &[u8]) -> Answer<Frame> {
    begin_making(header, Layout::Text)?;
    refuse_if(!(1..=MOST).contains(&text.len()), Refusal::EntryCount)?;
    check_characters(text, header.type_number)?;
    let mut layer = Layer::default();
    for code in text {
        layer.put(i64::from(*code), 8);
    }
    layer.fill(0);
    Ok(layer.frame(header))
}
