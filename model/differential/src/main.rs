//! Random calls of the proved library and of the model: answer, lent bytes and
//! canary bytes must be equal. Then readers that start late, of each test stream.
//! `rtcm2-differential [SEED COUNT]`; 1 if anything differs, or if an answer of a
//! function never came.

mod call;
mod draw;
mod header;
mod joiners;
mod library;
mod model;
mod place;
mod region;
mod tally;

use call::Call;
use draw::Draw;
use std::process::ExitCode;
use tally::Tally;

/// The seed and the number of calls of the gate.
const GATE: [u64; 2] = [1, 1_000_000];

fn main() -> ExitCode {
    let arguments: Vec<String> = std::env::args().skip(1).collect();
    let numbers: Result<Vec<u64>, _> = arguments.iter().map(|text| text.parse()).collect();
    let [seed, count] = match numbers.as_deref() {
        Ok([]) => GATE,
        Ok([seed, count]) => [*seed, *count],
        _ => {
            eprintln!("usage: rtcm2-differential [SEED COUNT]");
            return ExitCode::from(2);
        }
    };
    if run(seed, count) && joiners::run(seed) {
        ExitCode::SUCCESS
    } else {
        ExitCode::from(1)
    }
}

/// Makes the calls of a seed; whether all are equal and every answer came.
fn run(seed: u64, count: u64) -> bool {
    let mut draw = Draw::new(seed);
    let mut tally = Tally::none();
    for number in 1..=count {
        let call = draw.call();
        match compare(&call) {
            Ok((mut after, answer)) => {
                tally.count(call.function, answer);
                draw.after(&mut after, answer);
            }
            Err(difference) => {
                println!("seed {seed}, call {number}: {call}{difference}");
                return false;
            }
        }
    }
    tally.print();
    println!("seed {seed}: {count} calls, library and model are equal");
    tally.is_complete()
}

/// Makes a call on both sides: the call as it is left and the answer, or what
/// differs.
fn compare(call: &Call) -> Result<(Call, u64), String> {
    let (mut proved, mut expected) = (call.clone(), call.clone());
    let answer = library::answer(&mut proved);
    let expected_answer = model::answer(&mut expected);
    if answer == expected_answer && proved == expected {
        return Ok((proved, answer));
    }
    Err(format!(
        "the library answers {answer} and leaves {proved}\
         the model answers {expected_answer} and leaves {expected}\
         (where these are equal, a canary byte differs)"
    ))
}
