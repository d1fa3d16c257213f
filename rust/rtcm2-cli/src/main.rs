//! The command `rtcm2`.

#![forbid(unsafe_code)]

use rtcm2_cli::{command, fault, run};
use std::process::ExitCode;

fn main() -> ExitCode {
    let given = command::command().get_matches();
    fault::exit_code(run(&given))
}
