//! The files that the program `test_streams` is run on: the streams, their names as
//! its arguments, and what it must print.

use crate::record::values::{minutes, z_tenths};
use crate::refusal::Answer;
use crate::{streams, tally};

/// The folder of the streams.
pub const DATA: &str = "data";

/// A file of the trials.
#[derive(Clone, Debug, PartialEq, Eq)]
pub struct File {
    /// Its place.
    pub path: String,
    /// What it holds.
    pub bytes: Vec<u8>,
}

/// The streams, each in a file, then `args` and `stdout`.
pub fn files() -> Vec<File> {
    let mut files = Vec::new();
    let mut arguments = String::new();
    let mut output = String::new();
    for stream in streams::all() {
        let name = format!("{}.bin", stream.name);
        arguments += &format!("{name}\n");
        output += &format!(
            "{name}\n{}{}",
            stream.expected(),
            tally::line(&stream.bytes)
        );
        files.push(file(&format!("{DATA}/{name}"), stream.bytes));
    }
    output += &ends();
    files.push(file("args", arguments.into_bytes()));
    files.push(file("stdout", output.into_bytes()));
    files
}

/// What times of types 5 and 33 and Z counts stand for, at both ends of each answer.
fn ends() -> String {
    let mut text = String::new();
    for code in [0, 15, 16, 255] {
        text += &format!("time {code} {}\n", value("minutes", minutes(code)));
    }
    for z_count in [0, 5999, 6000, 8191, 8192, 65535] {
        text += &format!("z {z_count} {}\n", value("tenths", z_tenths(z_count)));
    }
    text
}

/// A value after its unit, or the refusal's number.
fn value(unit: &str, answer: Answer<impl Into<u16>>) -> String {
    match answer {
        Ok(value) => format!("{unit} {}", value.into()),
        Err(refusal) => format!("refused {}", refusal.number()),
    }
}

/// A file of these bytes.
pub fn file(path: &str, bytes: Vec<u8>) -> File {
    File {
        path: path.to_string(),
        bytes,
    }
}
