//! A journal that is written on: its records are read first, since behind one that is refused no other is found.

use crate::fault::{say, Fault};
use rtcm2::journal::{Journal, Unread};
use rtcm2::Refusal;
use std::fs::{File, OpenOptions};
use std::io;
use std::os::unix::fs::FileExt;
use std::path::Path;

/// Whether a file that is there is written on.
#[derive(Clone, Copy, Debug, PartialEq, Eq)]
pub enum Append {
    /// It is not.
    Never,
    /// Behind its last record, if all its records are read.
    Whole,
    /// The same, and a record at its end that is cut short is cut off first.
    Trimmed,
}

/// The first byte of every mark: of a record that is cut short it may be all that there is.
const MARK: u8 = 0x52;

/// Makes a file ready to be written on. One that is not there is ready, and so is what is no file.
pub fn make_ready(path: &Path, append: Append) -> Result<(), Fault> {
    if append == Append::Never || !path.metadata().is_ok_and(|about| about.is_file()) {
        return Ok(());
    }
    let name = path.display().to_string();
    let failed = |error: io::Error| Fault::system(&name, &error);
    let file = File::open(path).map_err(failed)?;
    let Some(unread) = Journal::new(&file).find_map(Result::err) else {
        return Ok(());
    };
    let (at, refusal) = match unread {
        Unread::Refused(at, refusal) => (at, refusal),
        Unread::Failed(_, error) => return Err(failed(error)),
    };
    let size = file.metadata().map_err(failed)?.len() - at;
    match (is_cut(&file, at, size, refusal).map_err(failed)?, append) {
        (true, Append::Trimmed) => {
            OpenOptions::new().write(true).open(path).and_then(|file| file.set_len(at)).map_err(failed)?;
            say(format_args!("{name}: byte {at}: a record cut short is cut off, {size} bytes"));
            Ok(())
        }
        (is_cut, _) => {
            let trim = if is_cut { ": --trim cuts it off first" } else { "" };
            Err(Fault::Refused(format!("{name}: byte {at}: {refusal}; what is kept behind it would not be read{trim}")))
        }
    }
}

/// Whether the last bytes of a journal are the start of a record.
fn is_cut(file: &File, at: u64, size: u64, refusal: Refusal) -> io::Result<bool> {
    let mut first = [0];
    file.read_exact_at(&mut first, at)?;
    Ok(refusal == Refusal::CutShort || (refusal == Refusal::NoMark && size == 1 && first == [MARK]))
}
