//! Where lines and journals go.

use crate::fault::Fault;
use std::fs::OpenOptions;
use std::io::{self, BufWriter, IsTerminal, Write};
use std::path::Path;

/// Standard output, by line on a live input: what is printed is flushed before more is read.
pub struct Printer {
    output: BufWriter<io::Stdout>,
}

impl Printer {
    /// Standard output.
    pub fn new() -> Printer {
        Printer { output: BufWriter::new(io::stdout()) }
    }

    /// One line.
    pub fn line(&mut self, line: impl std::fmt::Display) -> Result<(), Fault> {
        writeln!(self.output, "{line}").map_err(Fault::printing)
    }

    /// What was printed can be read now.
    pub fn flush(&mut self) -> Result<(), Fault> {
        self.output.flush().map_err(Fault::printing)
    }
}

impl Default for Printer {
    fn default() -> Printer {
        Printer::new()
    }
}

/// Where a journal is written: a file, or standard output.
pub struct Keeper {
    name: String,
    output: Box<dyn Write>,
}

impl Keeper {
    /// A new file, one that is written on, or standard output where there is no file. A file that is
    /// there is not written over.
    pub fn new(file: Option<&Path>, append: bool) -> Result<Keeper, Fault> {
        let Some(path) = file else {
            if io::stdout().is_terminal() {
                return Err(Fault::Usage(
                    "a journal is not written to a terminal: name a file with --output".to_string(),
                ));
            }
            return Ok(Keeper { name: "standard output".to_string(), output: Box::new(io::stdout()) });
        };
        let name = path.display().to_string();
        let mut options = OpenOptions::new();
        if append {
            options.append(true).create(true);
        } else {
            options.write(true).create_new(true);
        }
        let file = options.open(path).map_err(|error| Fault::system(&name, &error))?;
        Ok(Keeper { name, output: Box::new(file) })
    }

    /// Some records.
    pub fn write(&mut self, records: &[u8]) -> Result<(), Fault> {
        let written = self.output.write_all(records).and_then(|()| self.output.flush());
        written.map_err(|error| Fault::keeping(&self.name, error))
    }
}
