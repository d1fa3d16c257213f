//! Manual pages made from the command's own description, a page for the command and one for each
//! command below it.

use crate::fault::Fault;
use clap::{Arg, Command};
use std::fmt::Write;
use std::fs;
use std::path::Path;

/// Writes every page to a folder.
pub fn write(command: &Command, folder: &Path) -> Result<(), Fault> {
    let mut all = command.clone();
    all.build();
    write_below(&all, "rtcm2", folder)
}

fn write_below(command: &Command, name: &str, folder: &Path) -> Result<(), Fault> {
    let file = folder.join(format!("{name}.1"));
    fs::write(&file, page(command, name)).map_err(|error| Fault::system(file.display(), &error))?;
    for below in shown(command) {
        write_below(below, &format!("{name}-{}", below.get_name()), folder)?;
    }
    Ok(())
}

/// The commands below that are no help and not hidden.
fn shown(command: &Command) -> impl Iterator<Item = &Command> {
    command.get_subcommands().filter(|below| !below.is_hide_set() && below.get_name() != "help")
}

/// The text of a page, in the form of man.
fn page(command: &Command, name: &str) -> String {
    let mut page = String::new();
    let about = command.get_about().map(ToString::to_string).unwrap_or_default();
    let version = env!("CARGO_PKG_VERSION");
    let title = name.to_uppercase();
    let _ = writeln!(page, ".TH {} 1 \"\" \"rtcm2 {version}\"", plain(&title));
    let _ = writeln!(page, ".SH NAME\n{} \\- {}", plain(name), plain(&about));
    let usage = command.clone().render_usage().to_string();
    let usage = usage.trim_start_matches("Usage:").trim();
    let _ = writeln!(page, ".SH SYNOPSIS\n.B {}", plain(usage));
    let long = command.get_long_about().map(ToString::to_string).unwrap_or(about);
    let _ = writeln!(page, ".SH DESCRIPTION\n{}", plain(&long));
    options(&mut page, command);
    let below: Vec<_> = shown(command).collect();
    if !below.is_empty() {
        let _ = writeln!(page, ".SH COMMANDS");
        for command in below {
            let about = command.get_about().map(ToString::to_string).unwrap_or_default();
            let page_of = format!("{name}-{}", command.get_name());
            let _ = writeln!(page, ".TP\n.BR {} (1)\n{}", plain(&page_of), plain(&about));
        }
    }
    if let Some(codes) = command.get_after_help() {
        let _ = writeln!(page, ".SH EXIT STATUS\n{}", plain(codes.to_string().trim_start_matches("Exit codes: ")));
    }
    page
}

fn options(page: &mut String, command: &Command) {
    let _ = writeln!(page, ".SH OPTIONS");
    for argument in command.get_arguments().filter(|argument| !argument.is_hide_set()) {
        let help = argument.get_help().map(ToString::to_string).unwrap_or_default();
        let _ = writeln!(page, ".TP\n.B {}\n{}{}", plain(&named(argument)), plain(&help), plain(&range(argument)));
    }
}

/// An argument as it is given.
fn named(argument: &Arg) -> String {
    let values = argument.get_value_names().unwrap_or_default().iter().map(ToString::to_string).collect::<Vec<_>>();
    let takes = argument.get_action().takes_values();
    let value = if takes { values.join(" ") } else { String::new() };
    let names =
        [argument.get_short().map(|short| format!("-{short}")), argument.get_long().map(|long| format!("--{long}"))];
    let names = names.into_iter().flatten().collect::<Vec<_>>().join(", ");
    format!("{names} {value}").trim().to_string()
}

/// What may be given, and what is meant where nothing is.
fn range(argument: &Arg) -> String {
    let mut text = String::new();
    let values = argument.get_possible_values().iter().map(|value| value.get_name().to_string()).collect::<Vec<_>>();
    if !values.is_empty() && argument.get_action().takes_values() {
        let _ = write!(text, ": {}", values.join(", "));
    }
    let usual = argument.get_default_values().iter().map(|value| value.to_string_lossy()).collect::<Vec<_>>();
    if !usual.is_empty() && argument.get_action().takes_values() {
        let _ = write!(text, " (default: {})", usual.join(" "));
    }
    text
}

/// Text of which man reads nothing as its own.
fn plain(text: &str) -> String {
    let text = text.replace('\\', "\\e").replace('-', "\\-").replace('\n', " ");
    if text.starts_with(['.', '\'']) {
        format!("\\&{text}")
    } else {
        text
    }
}
