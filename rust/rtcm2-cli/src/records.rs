//! `records`: every record of a line in plain units, a line each, or a JSON object each.

use crate::fault::{Fault, Outcome, Verdict};
use crate::input::Lines;
use crate::output::Printer;
use crate::stream::{each_frame, Taker};
use crate::{record_json, record_text};
use rtcm2::{Edition, Frame, Refusal, Taken};

/// The records told so far.
struct Telling<'a> {
    printer: &'a mut Printer,
    edition: Edition,
    json: bool,
    file: Option<String>,
    refused: bool,
}

impl Taker for Telling<'_> {
    fn take(&mut self, taken: Taken) -> Result<(), Fault> {
        self.refused |= is_refused(&taken.frame, self.edition);
        if self.json {
            self.printer.line(record_json::object(&taken, self.edition, self.file.as_deref()))
        } else {
            self.printer.line(record_text::line(&taken, self.edition))
        }
    }

    fn pause(&mut self) -> Result<(), Fault> {
        self.printer.flush()
    }
}

/// Whether the record, or an entry of it, can't be read.
fn is_refused(frame: &Frame, edition: Edition) -> bool {
    rtcm2::Record::read_in(frame, edition).is_err()
}

/// Tells every record of every line: 1 where one was refused.
pub fn run(mut lines: Lines, edition: Edition, json: bool) -> Outcome {
    let mut printer = Printer::new();
    let mut telling = Telling { printer: &mut printer, edition, json, file: None, refused: false };
    while let Some(mut line) = lines.next_line()? {
        if lines.are_several() {
            telling.file = Some(line.name.clone());
            if !json {
                telling.printer.line(format_args!("# {}", line.name))?;
            }
        }
        let ended = each_frame(&mut line, &mut telling)?;
        lines.after(&line.name, ended.bytes, ended.read)?;
    }
    Ok(Verdict::unwell_if(telling.refused))
}

/// The name of a frame's layout.
pub fn layout(frame: &Frame) -> &'static str {
    match frame.header().kind {
        34 if frame.is_null() => "null",
        1 | 9 | 31 | 34 => "corrections",
        3 | 32 => "position",
        5 | 33 => "healths",
        6 => "null",
        16 | 36 => "text",
        18 | 19 => "observations",
        42 if frame.is_null() => "general null",
        41 | 42 => "generals",
        _ => "plain",
    }
}

/// What a frequency code means in an edition and a type; none where the code is reserved.
pub fn frequency(edition: Edition, kind: u8, code: u8) -> Option<&'static str> {
    match (code, edition, kind) {
        (0, _, _) => Some("L1"),
        (2, _, _) => Some("L2"),
        (1, Edition::Gost, 18) => Some("ionospheric difference"),
        (1, Edition::Gost, _) => Some("ionosphere-free"),
        (3, Edition::Gost, _) => Some("special"),
        _ => None,
    }
}

/// A refusal as its number and text.
pub fn refused(refusal: Refusal) -> String {
    format!("refusal {} ({})", refusal.number(), refusal.text())
}
