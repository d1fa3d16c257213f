//! Where a line or a journal comes from: standard input, files, a device as stty left it, or a
//! server. A file, a device and a connection are a line each.

use crate::fault::{say, told, Fault};
use indicatif::{ProgressBar, ProgressStyle};
use std::fs::{File, OpenOptions};
use std::io::{self, ErrorKind, IsTerminal, Read};
use std::net::{TcpStream, ToSocketAddrs};
use std::os::unix::fs::OpenOptionsExt;
use std::path::{Path, PathBuf};
use std::thread;
use std::time::Duration;

/// Progress is shown for files larger than this.
const LARGE: u64 = 16 * 1024 * 1024;
/// A server that does not answer for so long is not there; a connection on which nothing comes for
/// so long is made anew.
const PATIENCE: Duration = Duration::from_secs(60);

/// Where the lines come from.
#[derive(Clone, Debug, PartialEq, Eq)]
pub enum Source {
    /// Files and devices, one after the other; `-` is standard input.
    Files(Vec<PathBuf>),
    /// A server, HOST:PORT, to which a lost connection is made anew.
    Server {
        /// HOST:PORT.
        address: String,
        /// How long to wait before a connection is made anew; none where it is not.
        retry: Option<Duration>,
        /// Whether the first connection is tried again too.
        patient: bool,
    },
}

/// A line that is open.
pub struct Line {
    /// What messages call it.
    pub name: String,
    input: Box<dyn Read + Send>,
    is_device: bool,
    progress: Option<ProgressBar>,
}

impl Line {
    fn new(name: String, input: Box<dyn Read + Send>) -> Line {
        Line { name, input, is_device: false, progress: None }
    }
}

/// A device that ends is gone, whether the system says so or not.
impl Read for Line {
    fn read(&mut self, buffer: &mut [u8]) -> io::Result<usize> {
        let size = match self.input.read(buffer) {
            Ok(0) if self.is_device && !buffer.is_empty() => return Err(gone()),
            // What a terminal answers when its other end has gone.
            Err(error) if self.is_device && error.raw_os_error() == Some(libc::EIO) => return Err(gone()),
            Err(error) if matches!(error.kind(), ErrorKind::WouldBlock | ErrorKind::TimedOut) => return Err(silent()),
            read => read?,
        };
        if let Some(progress) = &self.progress {
            progress.inc(size as u64);
        }
        Ok(size)
    }
}

impl Drop for Line {
    fn drop(&mut self) {
        if let Some(progress) = &self.progress {
            progress.finish_and_clear();
        }
    }
}

fn gone() -> io::Error {
    io::Error::new(ErrorKind::UnexpectedEof, "the device is gone")
}

fn silent() -> io::Error {
    io::Error::new(ErrorKind::TimedOut, format!("nothing came for {} s", PATIENCE.as_secs()))
}

/// The lines of a source, one after the other.
pub struct Lines {
    source: Source,
    next: usize,
}

impl Lines {
    /// The lines of a source.
    pub fn new(source: Source) -> Lines {
        Lines { source, next: 0 }
    }

    /// Whether the lines have names of their own to be told.
    pub fn are_several(&self) -> bool {
        matches!(&self.source, Source::Files(files) if files.len() > 1)
    }

    /// The next line; none behind the last one.
    pub fn next_line(&mut self) -> Result<Option<Line>, Fault> {
        let number = self.next;
        self.next += 1;
        match &self.source {
            Source::Files(files) => files.get(number).map(|path| open(path)).transpose(),
            Source::Server { retry: None, .. } if number > 0 => Ok(None),
            Source::Server { address, retry, patient } => {
                let again = if number > 0 || *patient { *retry } else { None };
                connect(address, again, number > 0).map(Some)
            }
        }
    }

    /// What reading a line came to, behind so many bytes: an error of a connection that is made anew is
    /// said, and the next line follows; any other ends the command.
    pub fn after(&self, name: &str, bytes: u64, read: io::Result<()>) -> Result<(), Fault> {
        match (&self.source, read) {
            (Source::Server { retry: Some(_), .. }, Err(error)) => {
                say(format_args!("{name}: byte {bytes}: {}", told(&error)));
                Ok(())
            }
            (Source::Server { retry: Some(_), .. }, Ok(())) => {
                say(format_args!("{name}: the server closed the connection"));
                Ok(())
            }
            (_, read) => read.map_err(|error| Fault::system(format_args!("{name}: byte {bytes}"), &error)),
        }
    }
}

/// Opens a file, a device, or standard input.
pub fn open(path: &Path) -> Result<Line, Fault> {
    if path == Path::new("-") {
        return Ok(Line::new("standard input".to_string(), Box::new(io::stdin())));
    }
    let name = path.display().to_string();
    let opened = open_file(path).and_then(|file| Ok((file.metadata()?, file)));
    let (about, file) = opened.map_err(|error| Fault::system(&name, &error))?;
    if about.is_dir() {
        return Err(Fault::System(format!("{name}: is a directory")));
    }
    let is_device = file.is_terminal();
    let progress = (about.is_file() && about.len() > LARGE && io::stderr().is_terminal()).then(|| bar(about.len()));
    Ok(Line { name, input: Box::new(file), is_device, progress })
}

/// A file to be read. A device does not become the terminal of a service that opens it: it would end
/// with the device, before it could say so.
fn open_file(path: &Path) -> io::Result<File> {
    OpenOptions::new().read(true).custom_flags(libc::O_NOCTTY).open(path)
}

fn bar(size: u64) -> ProgressBar {
    let style =
        ProgressStyle::with_template("{bar:40} {bytes} of {total_bytes}, {eta} left").expect("a right template");
    ProgressBar::new(size).with_style(style)
}

/// A connection; where it is to be made again, however long that takes. The first failure is said,
/// and the others are not.
fn connect(address: &str, again: Option<Duration>, was_there: bool) -> Result<Line, Fault> {
    let mut is_said = false;
    if let (true, Some(pause)) = (was_there, again) {
        thread::sleep(pause);
    }
    loop {
        match try_connect(address) {
            Ok(stream) => {
                if was_there || is_said {
                    say(format_args!("{address}: connected"));
                }
                return Ok(Line::new(address.to_string(), Box::new(stream)));
            }
            Err(error) => {
                let Some(pause) = again else {
                    return Err(Fault::system(address, &error));
                };
                if !is_said {
                    say(format_args!("{address}: {}, trying again every {} s", told(&error), pause.as_secs()));
                }
                is_said = true;
                thread::sleep(pause);
            }
        }
    }
}

/// Connects to the first of the server's addresses that answers.
fn try_connect(address: &str) -> io::Result<TcpStream> {
    let mut failure = io::Error::new(ErrorKind::NotFound, "the server has no address");
    for place in address.to_socket_addrs()? {
        match TcpStream::connect_timeout(&place, PATIENCE) {
            Ok(stream) => {
                stream.set_read_timeout(Some(PATIENCE))?;
                return Ok(stream);
            }
            Err(error) => failure = error,
        }
    }
    Err(failure)
}
