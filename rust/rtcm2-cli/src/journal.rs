//! `journal keep`, `show`, `move` and `mend`.

use crate::append::{make_ready, Append};
use crate::fault::{Fault, Outcome, Verdict};
use crate::input::{open, Lines};
use crate::list::frame_line;
use crate::output::{Keeper, Printer};
use crate::stream::{each_frame, Taker};
use rtcm2::journal::{Form, Journal, Unread};
use rtcm2::mender::{self, Totals};
use rtcm2::Taken;
use std::fs::OpenOptions;
use std::io::{self, BufWriter, Write};
use std::path::Path;

/// Keeps frames as they come.
struct Keeping {
    keeper: Keeper,
    form: Form,
    records: Vec<u8>,
}

impl Taker for Keeping {
    fn take(&mut self, taken: Taken) -> Result<(), Fault> {
        match self.form {
            Form::Data => self.records.extend(taken.frame.as_bytes()),
            Form::Words => self.records.extend(&*taken.frame.words(taken.pair)),
        }
        Ok(())
    }

    fn pause(&mut self) -> Result<(), Fault> {
        self.keeper.write(&self.records)?;
        self.records.clear();
        Ok(())
    }
}

/// Keeps every frame of every line before more of the line is read.
pub fn keep(mut lines: Lines, form: Form, output: Option<&Path>, append: Append) -> Outcome {
    let mut line = lines.next_line()?;
    if let Some(path) = output {
        make_ready(path, append)?;
    }
    let keeper = Keeper::new(output, append != Append::Never)?;
    let mut keeping = Keeping { keeper, form, records: Vec::new() };
    while let Some(mut open) = line {
        let ended = each_frame(&mut open, &mut keeping)?;
        lines.after(&open.name, ended.bytes, ended.read)?;
        line = lines.next_line()?;
    }
    Ok(Verdict::Fine)
}

/// What a journal that is not read on says.
pub fn unread(name: &str, unread: Unread) -> Fault {
    match unread {
        Unread::Refused(at, refusal) => Fault::refused(name, at, refusal),
        Unread::Failed(at, error) => Fault::system(format_args!("{name}: byte {at}"), &error),
    }
}

/// A line for each record of a journal of either form.
pub fn show(file: &Path) -> Outcome {
    let line = open(file)?;
    let name = line.name.clone();
    let mut printer = Printer::new();
    for kept in Journal::new(line) {
        match kept {
            Ok(kept) => printer.line(frame_line(kept.at, &kept.frame, kept.pair))?,
            Err(error) => {
                printer.flush()?;
                return Err(unread(&name, error));
            }
        }
    }
    printer.flush()?;
    Ok(Verdict::Fine)
}

/// Moves a journal from one form to the other, up to its end or the first record that is refused.
pub fn move_to(to: Form, file: &Path, output: Option<&Path>) -> Outcome {
    let line = open(file)?;
    let name = line.name.clone();
    let mut keeper = Keeper::new(output, false)?;
    let mut records = Vec::new();
    let from = match to {
        Form::Words => Form::Data,
        Form::Data => Form::Words,
    };
    for kept in Journal::of(from, line) {
        match kept {
            Ok(kept) => records.extend(&*kept.moved()),
            Err(error) => {
                keeper.write(&records)?;
                return Err(unread(&name, error));
            }
        }
        if records.len() > 65536 {
            keeper.write(&records)?;
            records.clear();
        }
    }
    keeper.write(&records)?;
    Ok(Verdict::Fine)
}

/// Mends a journal into a new file: 1 where a record is lost or bytes were passed over.
pub fn mend(from: &Path, to: &Path) -> Outcome {
    let line = open(from)?;
    let name = to.display().to_string();
    let made = OpenOptions::new().write(true).create_new(true).open(to);
    let mut output =
        Named { name: &name, writer: made.map_err(|error| Fault::system(&name, &error))?, is_failed: false };
    let mut report = BufWriter::new(io::stdout());
    let from = line.name.clone();
    let Totals { records, changed, lost, passed } = match mender::mend(line, &mut output, &mut report) {
        Ok(totals) => totals,
        Err(error) if output.is_failed => return Err(Fault::system(output.name, &error)),
        Err(error) if error.kind() == io::ErrorKind::BrokenPipe => return Err(Fault::Unkept),
        Err(error) => return Err(Fault::system(from, &error)),
    };
    let last = writeln!(report, "records {records} changed {changed} lost {lost} passed {passed}");
    last.and_then(|()| report.flush()).map_err(Fault::printing)?;
    Ok(Verdict::unwell_if(lost > 0 || passed > 0))
}

/// A file that remembers whether it is the one that failed.
struct Named<'a, W> {
    name: &'a str,
    writer: W,
    is_failed: bool,
}

impl<W: Write> Write for Named<'_, W> {
    fn write(&mut self, bytes: &[u8]) -> io::Result<usize> {
        let written = self.writer.write(bytes);
        self.is_failed = written.is_err();
        written
    }

    fn flush(&mut self) -> io::Result<()> {
        let flushed = self.writer.flush();
        self.is_failed |= flushed.is_err();
        flushed
    }
}
