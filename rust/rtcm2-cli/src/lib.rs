//! The command `rtcm2`, as a library: its parts can be tested without a process of their own.

#![forbid(unsafe_code)]

pub mod append;
pub mod clock;
pub mod command;
pub mod fault;
pub mod input;
pub mod journal;
pub mod list;
pub mod monitor;
pub mod output;
pub mod pages;
pub mod profile;
pub mod record_json;
pub mod record_text;
pub mod records;
pub mod season;
pub mod stream;
pub mod units;
pub mod watch;

use append::Append;
use clap::ArgMatches;
use fault::{Fault, Outcome, Verdict};
use input::{Lines, Source};
use rtcm2::journal::Form;
use rtcm2::Edition;
use std::path::PathBuf;
use std::time::Duration;

/// Runs the command that was given.
pub fn run(given: &ArgMatches) -> Outcome {
    match given.subcommand() {
        Some(("list", given)) => list::run(lines(given, false)),
        Some(("records", given)) => records::run(lines(given, false), edition(given), given.get_flag("json")),
        Some(("journal", given)) => journal_command(given),
        Some(("season", given)) => {
            let files: Vec<PathBuf> = given.get_many::<PathBuf>("journal").unwrap_or_default().cloned().collect();
            season::run(&files, given.get_flag("json"))
        }
        Some(("profile", given)) => profile::run(lines(given, false)),
        Some(("monitor", given)) => monitor_command(given),
        Some(("completion", given)) => completion(given),
        Some(("manual", given)) => pages::write(&command::command(), path(given, "folder")).map(|()| Verdict::Fine),
        _ => Err(Fault::Usage("no command was given".to_string())),
    }
}

fn journal_command(given: &ArgMatches) -> Outcome {
    let output = |given: &ArgMatches| given.get_one::<PathBuf>("output").cloned();
    match given.subcommand() {
        Some(("keep", given)) => {
            journal::keep(lines(given, false), form(given, "form"), output(given).as_deref(), append(given))
        }
        Some(("show", given)) => journal::show(path(given, "journal")),
        Some(("move", given)) => journal::move_to(form(given, "to"), path(given, "journal"), output(given).as_deref()),
        Some(("mend", given)) => journal::mend(path(given, "from"), path(given, "to")),
        _ => Err(Fault::Usage("no command was given".to_string())),
    }
}

fn monitor_command(given: &ArgMatches) -> Outcome {
    let quiet = Duration::from_secs(*given.get_one::<u64>("quiet").expect("it has a default"));
    let (lines, json) = (lines(given, true), given.get_flag("json"));
    if lines.are_several() {
        return Err(Fault::Usage("a monitor watches one line: name one input".to_string()));
    }
    match given.get_one::<u32>("pace") {
        Some(bits) => watch::recorded(lines, quiet, *bits, json),
        None => watch::live(lines, quiet, json),
    }
}

fn completion(given: &ArgMatches) -> Outcome {
    let shell = *given.get_one::<clap_complete::Shell>("shell").expect("it is required");
    let mut script = Vec::new();
    clap_complete::generate(shell, &mut command::command(), "rtcm2", &mut script);
    use std::io::Write;
    std::io::stdout().write_all(&script).map_err(Fault::printing)?;
    Ok(Verdict::Fine)
}

/// The lines that were named. A monitor waits for a server that is not there yet.
fn lines(given: &ArgMatches, patient: bool) -> Lines {
    let files: Vec<PathBuf> = given.get_many::<PathBuf>("input").unwrap_or_default().cloned().collect();
    let retry = *given.get_one::<u64>("retry").expect("it has a default");
    Lines::new(match given.get_one::<String>("tcp") {
        Some(address) => {
            let retry = (retry > 0).then(|| Duration::from_secs(retry));
            Source::Server { address: address.clone(), retry, patient }
        }
        None if files.is_empty() => Source::Files(vec![PathBuf::from("-")]),
        None => Source::Files(files),
    })
}

fn path<'a>(given: &'a ArgMatches, name: &str) -> &'a std::path::Path {
    given.get_one::<PathBuf>(name).expect("it is required or has a default")
}

fn form(given: &ArgMatches, name: &str) -> Form {
    match given.get_one::<String>(name).map(String::as_str) {
        Some("data") => Form::Data,
        _ => Form::Words,
    }
}

fn append(given: &ArgMatches) -> Append {
    match (given.get_flag("append"), given.get_flag("trim")) {
        (false, _) => Append::Never,
        (true, false) => Append::Whole,
        (true, true) => Append::Trimmed,
    }
}

fn edition(given: &ArgMatches) -> Edition {
    match given.get_one::<String>("edition").map(String::as_str) {
        Some("bd") => Edition::Bd,
        _ => Edition::Gost,
    }
}
