//! `profile`: of each frame whether it is in the small-beacon profile.

use crate::fault::{Fault, Outcome, Verdict};
use crate::input::Lines;
use crate::list::frame_line;
use crate::output::Printer;
use crate::stream::{each_frame, Taker};
use rtcm2::Taken;

/// The frames told so far.
struct Check<'a> {
    printer: &'a mut Printer,
    inside: u64,
    outside: u64,
}

impl Taker for Check<'_> {
    fn take(&mut self, taken: Taken) -> Result<(), Fault> {
        let line = frame_line(u64::from(taken.at), &taken.frame, taken.pair);
        match taken.frame.check_profile() {
            Ok(()) => {
                self.inside += 1;
                self.printer.line(format_args!("{line} inside"))
            }
            Err(refusal) => {
                self.outside += 1;
                self.printer.line(format_args!("{line} {refusal}"))
            }
        }
    }

    fn pause(&mut self) -> Result<(), Fault> {
        self.printer.flush()
    }
}

/// Checks every frame of every line: 1 where one is outside.
pub fn run(mut lines: Lines) -> Outcome {
    let mut printer = Printer::new();
    let mut check = Check { printer: &mut printer, inside: 0, outside: 0 };
    while let Some(mut line) = lines.next_line()? {
        if lines.are_several() {
            check.printer.line(format_args!("# {}", line.name))?;
        }
        let ended = each_frame(&mut line, &mut check)?;
        lines.after(&line.name, ended.bytes, ended.read)?;
    }
    check.printer.line(format_args!("inside {} outside {}", check.inside, check.outside))?;
    check.printer.flush()?;
    Ok(Verdict::unwell_if(check.outside > 0))
}
