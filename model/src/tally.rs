//! What becomes of the frames of a stream: each is kept and recalled, its record
//! is read and made again, its fields are summed, and it is written.

use crate::again::made_again;
use crate::frame::{CarriedBits, Frame};
use crate::line::bits_of_bytes;
use crate::record::observation::Edition;
use crate::scan::scan;
use crate::{journal, writer};

/// Frames counted, and the sums of the bytes kept and written and of the fields
/// read.
#[derive(Default)]
struct Tally {
    records: u64,
    remade: u64,
    kept: u64,
    written: u64,
    bytes: Sum,
    fields: Sum,
}

/// A sum of numbers and the sum of all sums on the way, modulo 2^64.
#[derive(Default)]
struct Sum {
    numbers: u64,
    sums: u64,
}

impl Sum {
    /// Adds numbers, in this order.
    fn add<T: Into<u64> + Copy>(&mut self, more: &[T]) {
        for number in more {
            self.numbers = self.numbers.wrapping_add((*number).into());
            self.sums = self.sums.wrapping_add(self.numbers);
        }
    }
}

impl Tally {
    /// Keeps and recalls a frame, all but its carried bits; the sums take the whole
    /// buffer.
    fn keep(&mut self, frame: &Frame) {
        let mut buffer = [0; 102];
        let kept = journal::keep(frame, &mut buffer);
        let recalled = journal::recall(&buffer).map(|(frame, _)| frame);
        self.kept += u64::from(kept.is_ok() && recalled == Ok(frame.bare()));
        self.bytes.add(&buffer);
    }

    /// Reads a frame's record, sums its fields and makes it again; where it can't
    /// be read, the refusal's number is summed.
    fn remake(&mut self, frame: &Frame) {
        let mut numbers = Vec::new();
        let made = made_again(frame, edition_of(frame), &mut numbers);
        self.fields.add(&numbers);
        self.records += u64::from(made.is_ok());
        self.remade += u64::from(made == Ok(frame.bare()));
        if let Err(refusal) = made {
            self.fields.add(&[refusal.number()]);
        }
    }

    /// Writes a frame; the sums take the whole buffer.
    fn write(&mut self, frame: &Frame, carried: &mut CarriedBits) {
        let mut buffer = [0; 165];
        if let Ok(written) = writer::write(frame, *carried, &mut buffer) {
            *carried = written.carried;
            self.written += 1;
            self.bytes.add(&buffer);
        }
    }
}

/// The line of a stream, its frames by the definition.
pub fn line(bytes: &[u8]) -> String {
    let mut tally = Tally::default();
    let mut carried = CarriedBits::ZEROS;
    for (_, frame) in scan(&bits_of_bytes(bytes), true) {
        tally.keep(&frame);
        tally.remake(&frame);
        tally.write(&frame, &mut carried);
    }
    let (bytes, fields) = (&tally.bytes, &tally.fields);
    format!(
        "records {} remade {} kept {} written {} sum {} {} fields {} {}\n",
        tally.records,
        tally.remade,
        tally.kept,
        tally.written,
        bytes.numbers,
        bytes.sums,
        fields.numbers,
        fields.sums,
    )
}

/// The edition by which a frame is read here: GOST for an even sequence, BD for an odd
/// one.
fn edition_of(frame: &Frame) -> Edition {
    match frame.header.sequence % 2 {
        0 => Edition::Gost,
        _ => Edition::Bd,
    }
}
