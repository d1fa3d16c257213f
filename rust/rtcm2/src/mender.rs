//! The mender of journals that keep the words: it turns back single bits, and leaves what it can't
//! mend as it was.

use crate::ffi;
use crate::list::Bytes;

/// A step looks at no more bytes.
pub const LOOKS_AT: usize = crate::frame::WORDS_MOST;
const REPORT_MOST: usize = 986;

/// What a step finds.
#[derive(Clone, Copy, Debug, PartialEq, Eq, Hash)]
pub enum Found {
    /// No byte is left: the run ends.
    End,
    /// A record that reads, after mending where it had to be mended.
    Whole,
    /// A record that can't be mended; its bytes stay.
    Lost,
    /// A record that the bytes end in: lost, and the run ends.
    Cut,
    /// A record without an N that counts: lost.
    Numberless,
    /// A byte that begins no record, or while searching none that is whole.
    Passed,
}

impl Found {
    /// Whether the next step searches.
    pub fn searches_on(self) -> bool {
        matches!(self, Found::Numberless | Found::Passed)
    }
}

/// What a step did.
#[derive(Clone, Copy, Debug, PartialEq, Eq)]
pub struct Step {
    /// What it found.
    pub found: Found,
    /// The next step is so many bytes on.
    pub read: usize,
    /// A line for each byte that changed, `OFFSET OLD NEW`, or `lost OFFSET`.
    pub report: Bytes<REPORT_MOST>,
}

/// One step at the start of the bytes, which stand at a place of the journal: lend [`LOOKS_AT`] of
/// them, or all that are left where the journal ends before. A whole record is put back in place.
pub fn step(bytes: &mut [u8], at: u64, searching: bool) -> Step {
    let (mut number, mut read) = (0, 0);
    let report = Bytes::filled(|report, written| {
        ffi::rtcm2_mend(bytes, at, u8::from(searching), report, &mut number, &mut read, written)
    });
    let found =
        [Found::End, Found::Whole, Found::Lost, Found::Cut, Found::Numberless, Found::Passed][usize::from(number)];
    Step { found, read, report: report.expect("there is room for any report") }
}

#[cfg(feature = "std")]
pub use over_read::{mend, Totals};

#[cfg(feature = "std")]
mod over_read {
    use super::{step, Found, LOOKS_AT};
    use std::io::{self, ErrorKind, Read, Write};
    use std::vec;

    /// What a run found.
    #[derive(Clone, Copy, Debug, Default, PartialEq, Eq)]
    pub struct Totals {
        /// Records that read, after mending where they had to be mended.
        pub records: u64,
        /// Bytes that changed.
        pub changed: u64,
        /// Records that are lost.
        pub lost: u64,
        /// Bytes passed over.
        pub passed: u64,
    }

    /// Where a run is, and the stretch of bytes passed over behind it.
    #[derive(Default)]
    struct Course {
        at: u64,
        searching: bool,
        stretch: u64,
        totals: Totals,
    }

    impl Course {
        /// The stretch that ended here, as a line.
        fn tell_stretch(&mut self, report: &mut impl Write) -> io::Result<()> {
            if self.stretch > 0 {
                writeln!(report, "passed {} {}", self.at - self.stretch, self.stretch)?;
                self.stretch = 0;
            }
            Ok(())
        }

        /// One step at the start of the bytes; how many are behind it, or none where the run ends.
        fn step(&mut self, bytes: &mut [u8], report: &mut impl Write) -> io::Result<Option<usize>> {
            let step = step(bytes, self.at, self.searching);
            if step.found == Found::Passed {
                self.stretch += 1;
                self.totals.passed += 1;
            } else {
                self.tell_stretch(report)?;
            }
            report.write_all(&step.report)?;
            match step.found {
                Found::Whole => {
                    self.totals.records += 1;
                    self.totals.changed += step.report.iter().filter(|&&byte| byte == b'\n').count() as u64;
                }
                Found::Lost | Found::Cut | Found::Numberless => self.totals.lost += 1,
                Found::End | Found::Passed => {}
            }
            self.searching = step.found.searches_on();
            self.at += step.read as u64;
            Ok((!matches!(step.found, Found::End | Found::Cut)).then_some(step.read))
        }
    }

    /// Mends the journal that is read, and writes what came of it. The report has a line for each byte
    /// that changed, each record that is lost, and each stretch of bytes passed over.
    pub fn mend(mut input: impl Read, mut output: impl Write, mut report: impl Write) -> io::Result<Totals> {
        let mut buffer = vec![0; 65536];
        let (mut held, mut is_whole, mut course) = (0, false, Course::default());
        loop {
            let (mut next, mut is_over) = (0, false);
            while !is_over && (is_whole || held - next >= LOOKS_AT) {
                match course.step(&mut buffer[next..held], &mut report)? {
                    Some(read) => next += read,
                    None => is_over = true,
                }
            }
            let done = if is_over { held } else { next };
            output.write_all(&buffer[..done])?;
            buffer.copy_within(done..held, 0);
            held -= done;
            if is_over {
                output.flush()?;
                return Ok(course.totals);
            }
            match input.read(&mut buffer[held..]) {
                Ok(0) => is_whole = true,
                Ok(more) => held += more,
                Err(error) if error.kind() == ErrorKind::Interrupted => {}
                Err(error) => return Err(error),
            }
        }
    }
}
