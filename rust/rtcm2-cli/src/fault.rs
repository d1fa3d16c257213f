//! How a command ends: its exit code, and the line that it says on standard error.

use rtcm2::Refusal;
use std::fmt::Display;
use std::io::{self, ErrorKind};
use std::process::ExitCode;

/// A command that came to its end.
#[derive(Clone, Copy, Debug, PartialEq, Eq, PartialOrd, Ord)]
pub enum Verdict {
    /// 0: all is fine.
    Fine,
    /// 1: something was refused, or the station is quiet or unwell. What it was has been said.
    Unwell,
    /// 3: the system said no to a part, which has been said.
    Failed,
}

impl Verdict {
    /// Unwell where this is so.
    pub fn unwell_if(so: bool) -> Verdict {
        if so {
            Verdict::Unwell
        } else {
            Verdict::Fine
        }
    }
}

impl Fault {
    /// Says why a part of a command stopped, where the others go on.
    pub fn said(self) -> Verdict {
        match self {
            Fault::Refused(line) => {
                say(line);
                Verdict::Unwell
            }
            Fault::Usage(line) | Fault::System(line) => {
                say(line);
                Verdict::Failed
            }
            Fault::Closed => Verdict::Fine,
            Fault::Unkept => Verdict::Failed,
        }
    }
}

/// Why a command stopped before its end.
#[derive(Debug)]
pub enum Fault {
    /// 1: bytes were refused.
    Refused(String),
    /// 2: the command can't be run as it was given.
    Usage(String),
    /// 3: the system said no.
    System(String),
    /// 0: what reads the output has closed it. Nothing is said.
    Closed,
    /// 3: what keeps the output has closed it, and frames are not kept. Nothing is said.
    Unkept,
}

/// How a command ended.
pub type Outcome = Result<Verdict, Fault>;

impl Fault {
    /// The refusal of what stands at a byte of an input.
    pub fn refused(name: &str, at: u64, refusal: Refusal) -> Fault {
        Fault::Refused(format!("{name}: byte {at}: {refusal}"))
    }

    /// What the system said of an input or an output.
    pub fn system(name: impl Display, error: &io::Error) -> Fault {
        Fault::System(format!("{name}: {}", told(error)))
    }

    /// What the system said of standard output, where lines are printed.
    pub fn printing(error: io::Error) -> Fault {
        match error.kind() {
            ErrorKind::BrokenPipe => Fault::Closed,
            _ => Fault::system("standard output", &error),
        }
    }

    /// What the system said of the place where a journal is written.
    pub fn keeping(name: &str, error: io::Error) -> Fault {
        match error.kind() {
            ErrorKind::BrokenPipe => Fault::Unkept,
            _ => Fault::system(name, &error),
        }
    }
}

/// An error of the system in words, without its number.
pub fn told(error: &io::Error) -> String {
    let text = error.to_string();
    match text.find(" (os error") {
        Some(end) => text[..end].to_lowercase(),
        None => text,
    }
}

/// A line on standard error. Where that is closed too, nobody is left to be told.
pub fn say(line: impl Display) {
    use std::io::Write;
    let _ = writeln!(io::stderr(), "rtcm2: {line}");
}

/// Says why a command stopped, and gives its exit code.
pub fn exit_code(outcome: Outcome) -> ExitCode {
    let (line, code) = match outcome {
        Ok(Verdict::Fine) | Err(Fault::Closed) => (None, 0),
        Ok(Verdict::Unwell) => (None, 1),
        Ok(Verdict::Failed) => (None, 3),
        Err(Fault::Refused(line)) => (Some(line), 1),
        Err(Fault::Usage(line)) => (Some(line), 2),
        Err(Fault::System(line)) => (Some(line), 3),
        Err(Fault::Unkept) => (None, 3),
    };
    if let Some(line) = line {
        say(line);
    }
    ExitCode::from(code)
}
