//! Prints the corrections of a line from standard input, one a line and each as soon as its frame
//! has come: position of the frame, the two line bits before it, station, Z count, system (GPS or
//! GLO), satellite, PRC in mm, RRC in mm/s, UDRE limit in mm, and the IOD of GPS or change bit/tb of
//! GLONASS; then how many positions a word ruled out, with an odd and with an even remainder, and
//! how many frames, corrections and refused entries there were. A satellite that is not to be used
//! has "stop" for PRC and RRC. An entry that can't be read, a GLONASS one with a tb past the hour,
//! gives a line with its number and the refusal's, and the program goes on.
//!
//!     cd rust && cargo run --release -p rtcm2 --example corrections < ../examples/stream.bin

use rtcm2::{Correction, Issue, Reader, Refusal, System, Taken};
use std::error::Error;
use std::fmt::Display;
use std::io::{self, Write};

/// What was printed so far.
#[derive(Default)]
struct Totals {
    frames: u64,
    corrections: u64,
    refused: u64,
}

fn main() -> Result<(), Box<dyn Error>> {
    let mut totals = Totals::default();
    let mut reader = Reader::new(io::stdin().lock());
    // Standard output is written at the end of each line, so that a slow line is heard at once.
    let mut output = io::stdout().lock();
    for taken in &mut reader {
        let taken = taken?;
        totals.frames += 1;
        print_frame(&taken, &mut totals, &mut output)?;
    }
    let counts = reader.counts();
    writeln!(output, "odd {} even {}", counts.odd, counts.even)?;
    let Totals {
        frames,
        corrections,
        refused,
    } = totals;
    writeln!(
        output,
        "frames {frames} corrections {corrections} refused {refused}"
    )?;
    Ok(())
}

/// A line for each correction of a frame, and for each entry with a number out of its range. A frame
/// of another type, with a Z count past the hour or an N that doesn't fit, gives none.
fn print_frame(
    taken: &Taken,
    totals: &mut Totals,
    output: &mut impl Write,
) -> Result<(), Box<dyn Error>> {
    let (frame, header) = (&taken.frame, taken.frame.header());
    let entries = match frame.corrections() {
        Err(Refusal::OtherType | Refusal::ZCount | Refusal::WrongN) => return Ok(()),
        entries => entries?,
    };
    let system = match header.system() {
        System::Gps => "GPS",
        System::Glonass => "GLO",
    };
    for (index, entry) in entries.enumerate() {
        let shown = match entry {
            Err(refusal @ Refusal::Field) => {
                totals.refused += 1;
                format!("entry {index} refused {}", refusal.number())
            }
            entry => {
                totals.corrections += 1;
                values(&entry?, header.health)?
            }
        };
        let (at, pair, station, z) = (taken.at, taken.pair, header.station, header.z);
        writeln!(output, "{at} {pair} {station} {z} {system} {shown}")?;
    }
    Ok(())
}

/// What a correction says: satellite, PRC, RRC, UDRE limit, issue.
fn values(correction: &Correction, health: u8) -> Result<String, Refusal> {
    let issue = match correction.issue {
        Issue::Iod(iod) => iod.to_string(),
        Issue::Age { change, tb } => format!("{}/{tb}", u8::from(change)),
    };
    let prc = or_word(correction.prc_mm()?, "stop");
    let rrc = or_word(correction.rrc_mm_s()?, "stop");
    let limit = or_word(correction.udre_limit_mm(health)?, "none");
    Ok(format!(
        "{} {prc} {rrc} {limit} {issue}",
        correction.satellite
    ))
}

/// The number, or the word that stands for none.
fn or_word(number: Option<impl Display>, word: &str) -> String {
    number.map_or(word.to_string(), |number| number.to_string())
}
