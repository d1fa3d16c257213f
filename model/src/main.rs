//! The model's program: makes the trials, the journals and the examples' files,
//! checks the trials, and lists a stream from standard input.

use rtcm2_model::trials::{self, File};
use rtcm2_model::{example, journals, listing, season_runs, streams};
use std::fs;
use std::io::{self, BufWriter, Read};
use std::path::Path;
use std::process::ExitCode;

const USAGE: &str =
    "usage: rtcm2-model trials DIR | check DIR | long DIR | journals DIR | season DIR | example DIR | corrections | list";

fn main() -> ExitCode {
    let arguments: Vec<String> = std::env::args().skip(1).collect();
    let words: Vec<&str> = arguments.iter().map(String::as_str).collect();
    let answer = match words.as_slice() {
        ["trials", dir] => write_trials(Path::new(dir)),
        ["check", dir] => check_trials(Path::new(dir)),
        ["long", dir] => write_long(Path::new(dir)),
        ["journals", dir] => write_all(Path::new(dir), journals::files()),
        ["season", dir] => write_all(Path::new(dir), season_runs::files()),
        ["example", dir] => write_example(Path::new(dir)),
        ["corrections"] => corrections(),
        ["list"] => list(),
        _ => Err(io::Error::other(USAGE)),
    };
    match answer {
        Ok(true) => ExitCode::SUCCESS,
        Ok(false) => ExitCode::from(1),
        Err(error) => {
            eprintln!("{error}");
            ExitCode::from(2)
        }
    }
}

/// Prints the listing of standard input.
fn list() -> io::Result<bool> {
    let output = BufWriter::new(io::stdout().lock());
    listing::through_reader(io::stdin().lock(), output)?;
    Ok(true)
}

/// Prints the corrections of standard input, as the examples do.
fn corrections() -> io::Result<bool> {
    let mut bytes = Vec::new();
    io::stdin().lock().read_to_end(&mut bytes)?;
    print!("{}", example::expected(&bytes));
    Ok(true)
}

/// Writes the examples' stream and what they must print.
fn write_example(dir: &Path) -> io::Result<bool> {
    let bytes = example::stream();
    fs::write(dir.join("stream.bin"), &bytes)?;
    fs::write(dir.join("expected.txt"), example::expected(&bytes))?;
    Ok(true)
}

/// Writes a stream of over a million bytes and its listing.
fn write_long(dir: &Path) -> io::Result<bool> {
    let stream = streams::long();
    fs::write(dir.join("long.bin"), &stream.bytes)?;
    fs::write(dir.join("long.txt"), stream.expected())?;
    Ok(true)
}

/// Writes journals, and what the programs on them must make of them.
fn write_all(dir: &Path, files: Vec<File>) -> io::Result<bool> {
    for file in files {
        fs::write(dir.join(&file.path), &file.bytes)?;
    }
    Ok(true)
}

/// Writes the files of the trials.
fn write_trials(dir: &Path) -> io::Result<bool> {
    let files = trials::files();
    fs::create_dir_all(dir.join(trials::DATA))?;
    for file in &files {
        fs::write(dir.join(&file.path), &file.bytes)?;
    }
    println!("{} files written", files.len());
    Ok(true)
}

/// Compares the files in the folder with the trials made anew.
fn check_trials(dir: &Path) -> io::Result<bool> {
    let files = trials::files();
    let is_as_made =
        |file: &&File| fs::read(dir.join(&file.path)).is_ok_and(|bytes| bytes == file.bytes);
    let changed = files.iter().filter(|file| !is_as_made(file));
    let mut differ: Vec<String> = changed.map(|file| file.path.clone()).collect();
    differ.extend(strangers(dir, &files)?);
    for path in &differ {
        println!("{path} differs");
    }
    if differ.is_empty() {
        println!("{} files, all as made", files.len());
    }
    Ok(differ.is_empty())
}

/// Files among the streams that are not made here.
fn strangers(dir: &Path, files: &[File]) -> io::Result<Vec<String>> {
    let mut paths = Vec::new();
    for entry in fs::read_dir(dir.join(trials::DATA))? {
        let name = entry?.file_name();
        let path = format!("{}/{}", trials::DATA, name.to_string_lossy());
        if files.iter().all(|file| file.path != path) {
            paths.push(path);
        }
    }
    paths.sort();
    Ok(paths)
}
