//! The command's description, from which come its help, its completion and its manual pages.

use clap::builder::{PathBufValueParser, PossibleValuesParser};
use clap::{value_parser, Arg, ArgAction, Command, ValueHint};

const CODES: &str = "Exit codes: 0 fine; 1 something was refused, or the station is quiet or unwell; \
    2 the command was not given rightly; 3 the system said no. A closed pipe is no error.";

/// The whole command.
pub fn command() -> Command {
    Command::new("rtcm2")
        .version(env!("CARGO_PKG_VERSION"))
        .about("RTCM version 2 lines: listed, read, kept and watched")
        .long_about(
            "Reads the line of a differential beacon, 6-of-8 bytes of RTCM version 2, by a decoder that is proved: \
             it goes on after a dropped byte, on a line whose bits are all turned over, and behind a false header.",
        )
        .after_help(CODES)
        .subcommand_required(true)
        .arg_required_else_help(true)
        .subcommand(list())
        .subcommand(records())
        .subcommand(journal())
        .subcommand(season())
        .subcommand(profile())
        .subcommand(monitor())
        .subcommand(completion())
        .subcommand(manual())
}

/// Where a line comes from: files, or a server.
fn with_lines(command: Command) -> Command {
    command
        .arg(
            Arg::new("input")
                .value_name("INPUT")
                .num_args(0..)
                .value_parser(PathBufValueParser::new())
                .value_hint(ValueHint::FilePath)
                .help("Files or devices, each a line of its own; - or none is standard input"),
        )
        .arg(
            Arg::new("tcp")
                .long("tcp")
                .value_name("HOST:PORT")
                .value_parser(address)
                .conflicts_with("input")
                .help("A server; a connection that is lost is made anew"),
        )
        .arg(
            Arg::new("retry")
                .long("retry")
                .value_name("SECONDS")
                .value_parser(value_parser!(u64).range(0..=86400))
                .default_value("5")
                .requires("tcp")
                .help("How long to wait before a connection is made anew; 0 for never"),
        )
}

fn json() -> Arg {
    Arg::new("json").long("json").action(ArgAction::SetTrue).help("A JSON object a line")
}

fn list() -> Command {
    with_lines(Command::new("list"))
        .about("A line for each frame: place, type, station, Z count, sequence, N, health, the two bits before it")
        .after_help(CODES)
}

fn records() -> Command {
    with_lines(Command::new("records"))
        .about("Every record in plain units, a line each")
        .after_help(CODES)
        .arg(json())
        .arg(
            Arg::new("edition")
                .long("edition")
                .value_name("EDITION")
                .value_parser(PossibleValuesParser::new(["gost", "bd"]))
                .default_value("gost")
                .help("Whose meaning types 18 and 19 have: GOST R 53612-2009 or BD 410002-2015"),
        )
}

fn profile() -> Command {
    with_lines(Command::new("profile"))
        .about("Whether each frame is in the small-beacon profile; 1 if one is not")
        .after_help(CODES)
}

fn file(name: &'static str, help: &'static str) -> Arg {
    Arg::new(name).value_name("FILE").value_parser(PathBufValueParser::new()).value_hint(ValueHint::FilePath).help(help)
}

fn output() -> Arg {
    file("output", "A new file for the journal; none is standard output").short('o').long("output")
}

fn form(name: &'static str, help: &'static str) -> Arg {
    Arg::new(name).long(name).value_name("FORM").value_parser(PossibleValuesParser::new(["words", "data"])).help(help)
}

fn journal() -> Command {
    Command::new("journal")
        .about("Frames on disk")
        .after_help(CODES)
        .subcommand_required(true)
        .arg_required_else_help(true)
        .subcommand(
            with_lines(Command::new("keep"))
                .about("Keeps the frames of a line, each before more of the line is read")
                .after_help(CODES)
                .arg(output())
                .arg(
                    Arg::new("append")
                        .long("append")
                        .action(ArgAction::SetTrue)
                        .requires("output")
                        .help("Write on at the end of a file that is there, if all its records are read"),
                )
                .arg(
                    Arg::new("trim")
                        .long("trim")
                        .action(ArgAction::SetTrue)
                        .requires("append")
                        .help("Cut off a record at the end of that file that is cut short, as a lost supply leaves it"),
                )
                .arg(form("form", "What is kept of a frame: its words, or their data alone").default_value("words")),
        )
        .subcommand(
            Command::new("show")
                .about("A line for each record of a journal of either form")
                .after_help(CODES)
                .arg(file("journal", "The journal; - or none is standard input").default_value("-")),
        )
        .subcommand(
            Command::new("move")
                .about("Moves a journal from one form to the other")
                .after_help(CODES)
                .arg(form("to", "The form that it is moved to").required(true))
                .arg(file("journal", "The journal; - or none is standard input").default_value("-"))
                .arg(output()),
        )
        .subcommand(
            Command::new("mend")
                .about("Turns back single bits that a disk has altered in a journal that keeps the words; 1 if a record is lost")
                .after_help(CODES)
                .arg(file("from", "The journal, which is not changed").value_name("IN").required(true))
                .arg(file("to", "A new file for what comes of it").value_name("OUT").required(true)),
        )
}

fn season() -> Command {
    Command::new("season")
        .about("How far corrections wander over many journals: counts, least and largest PRC in mm and their exact sum")
        .after_help(CODES)
        .arg(file("journal", "Journals of either form; - is standard input").required(true).num_args(1..))
        .arg(json())
}

fn monitor() -> Command {
    with_lines(Command::new("monitor"))
        .about("Says when the station goes quiet or unwell, and when it is back: a line an event")
        .long_about(
            "Says when the station goes quiet or unwell, and when it is back: a line an event, and none twice while nothing \
             changes. Slips, a turned line, false headers and noise between frames are no events. The states and events are \
             in docs/MONITOR.md.",
        )
        .after_help(CODES)
        .arg(
            Arg::new("quiet")
                .long("quiet")
                .value_name("SECONDS")
                .value_parser(value_parser!(u64).range(1..=86400))
                .default_value("30")
                .help("How long no frame may come before the line is quiet"),
        )
        .arg(
            Arg::new("pace")
                .long("pace")
                .value_name("BITS")
                .value_parser(value_parser!(u32).range(1..=1_000_000))
                .conflicts_with("tcp")
                .help("The line was recorded: time goes by its bytes, six bits each at so many bits a second"),
        )
        .arg(json())
}

fn completion() -> Command {
    Command::new("completion").about("Prints the completion for a shell").arg(
        Arg::new("shell")
            .value_name("SHELL")
            .required(true)
            .value_parser(value_parser!(clap_complete::Shell))
            .help("The shell"),
    )
}

fn manual() -> Command {
    Command::new("manual").about("Writes the manual pages of the command").hide(true).arg(
        Arg::new("folder")
            .value_name("FOLDER")
            .required(true)
            .value_parser(PathBufValueParser::new())
            .help("Where they go"),
    )
}

/// HOST:PORT.
fn address(text: &str) -> Result<String, String> {
    let port = text.rsplit_once(':').filter(|(host, _)| !host.is_empty()).map(|(_, port)| port.parse::<u16>());
    match port {
        Some(Ok(1..)) => Ok(text.to_string()),
        _ => Err("HOST:PORT is meant, with a port of 1 to 65535".to_string()),
    }
}
