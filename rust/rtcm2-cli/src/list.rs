//! `list`: a line for each frame, then how words failed and how many frames and bytes there were.

use crate::fault::{Fault, Outcome, Verdict};
use crate::input::Lines;
use crate::output::Printer;
use crate::stream::{each_frame, Taker};
use rtcm2::{Frame, Pair, Taken};

/// The listing's line of a frame: where it stands, type, station, Z count, sequence, N, health, and
/// the two bits before it.
pub fn frame_line(at: u64, frame: &Frame, pair: Pair) -> String {
    let (header, n) = (frame.header(), frame.n());
    let (kind, station, z, sequence, health) = (header.kind, header.station, header.z, header.sequence, header.health);
    format!("{at} {kind} {station} {z} {sequence} {n} {health} {pair}")
}

/// The frames printed so far.
struct Listing<'a> {
    printer: &'a mut Printer,
    frames: u64,
}

impl Taker for Listing<'_> {
    fn take(&mut self, taken: Taken) -> Result<(), Fault> {
        self.frames += 1;
        self.printer.line(frame_line(u64::from(taken.at), &taken.frame, taken.pair))
    }

    fn pause(&mut self) -> Result<(), Fault> {
        self.printer.flush()
    }
}

/// Lists every line; of one that can't be read on, what came before.
pub fn run(mut lines: Lines) -> Outcome {
    let mut printer = Printer::new();
    while let Some(mut line) = lines.next_line()? {
        if lines.are_several() {
            printer.line(format_args!("# {}", line.name))?;
        }
        let mut listing = Listing { printer: &mut printer, frames: 0 };
        let ended = each_frame(&mut line, &mut listing)?;
        let frames = listing.frames;
        printer.line(format_args!("odd {} even {}", ended.counts.odd, ended.counts.even))?;
        printer.line(format_args!("frames {frames} bytes {} passed {}", ended.bytes, ended.passed))?;
        printer.flush()?;
        lines.after(&line.name, ended.bytes, ended.read)?;
    }
    Ok(Verdict::Fine)
}
