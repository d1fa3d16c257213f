//! The text of a whole stream: one line for each frame, one for the words that
//! failed, then the totals. Once by the definition and once through the reader.

use crate::frame::Frame;
use crate::line::{bits_of_bytes, is_data_byte};
use crate::reader::Reader;
use crate::refusal::{Answer, Refusal};
use crate::scan::{faults, odd_and_even, scan};
use std::fmt::Display;
use std::io::{self, Read, Write};

/// The line of a frame: its first bit position, or where else it stands, its numbers,
/// the two bits before it.
pub fn frame_line(position: impl Display, frame: &Frame) -> String {
    let header = &frame.header;
    format!(
        "{} {} {} {} {} {} {} {}{}\n",
        position,
        header.type_number,
        header.station,
        header.z_count,
        header.sequence,
        frame.n,
        header.state.code().unwrap_or(0),
        frame.carried.d29,
        frame.carried.d30,
    )
}

/// The second last line.
fn counts_line(odd: u32, even: u32) -> String {
    format!("odd {odd} even {even}\n")
}

/// The last line.
fn totals_line(frames: u64, bytes: u64, passed: u64) -> String {
    format!("frames {frames} bytes {bytes} passed {passed}\n")
}

/// The listing of a stream by the definition alone, without the reader.
pub fn by_definition(bytes: &[u8]) -> String {
    let bits = bits_of_bytes(bytes);
    let frames = scan(&bits, true);
    let [odd, even] = odd_and_even(&faults(&bits, true, frames.len()));
    let passed = bytes.iter().filter(|byte| !is_data_byte(**byte)).count();
    let mut text = String::new();
    for (position, frame) in &frames {
        text += &frame_line(*position as u32, frame);
    }
    text += &counts_line(odd as u32, even as u32);
    text + &totals_line(frames.len() as u64, bytes.len() as u64, passed as u64)
}

/// Totals while a stream is read.
#[derive(Default)]
struct Totals {
    frames: u64,
    bytes: u64,
    passed: u64,
}

/// Reads a whole stream through the reader and writes its listing.
pub fn through_reader(mut input: impl Read, mut output: impl Write) -> io::Result<()> {
    let mut reader = Reader::new();
    let mut totals = Totals::default();
    let mut piece = vec![0; 1 << 16];
    loop {
        let count = match input.read(&mut piece) {
            Ok(0) => break,
            Ok(count) => count,
            Err(error) if error.kind() == io::ErrorKind::Interrupted => continue,
            Err(error) => return Err(error),
        };
        feed_piece(&mut reader, &mut totals, &piece[..count], &mut output)?;
    }
    answered(reader.end())?;
    take_all(&mut reader, &mut totals, &mut output)?;
    let counts = counts_line(reader.counts().odd, reader.counts().even);
    let last = totals_line(totals.frames, totals.bytes, totals.passed);
    output.write_all(counts.as_bytes())?;
    output.write_all(last.as_bytes())?;
    output.flush()
}

/// Feeds one piece, taking every frame as soon as it waits.
fn feed_piece(
    reader: &mut Reader,
    totals: &mut Totals,
    mut piece: &[u8],
    output: &mut impl Write,
) -> io::Result<()> {
    while !piece.is_empty() {
        let fed = answered(reader.feed_all(piece))?;
        totals.bytes = totals.bytes.wrapping_add(fed.used as u64);
        totals.passed = totals.passed.wrapping_add(fed.passed as u64);
        piece = &piece[fed.used..];
        take_all(reader, totals, output)?;
    }
    Ok(())
}

/// Takes every waiting frame and writes its line.
fn take_all(reader: &mut Reader, totals: &mut Totals, output: &mut impl Write) -> io::Result<()> {
    while reader.waits() {
        let taken = answered(reader.take())?;
        totals.frames = totals.frames.wrapping_add(1);
        output.write_all(frame_line(taken.position, &taken.frame).as_bytes())?;
    }
    Ok(())
}

/// A refusal here would be a fault of this module; it is shown as an error.
fn answered<T>(answer: Answer<T>) -> io::Result<T> {
    let shown = |refusal: Refusal| io::Error::other(format!("refusal {}", refusal.number()));
    answer.map_err(shown)
}
