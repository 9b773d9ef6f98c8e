//! A second program for DTAUS files: its one argument chooses what standard input holds and what is answered.

mod calendar;
mod check;
mod columns;
mod compose;
mod dates;
mod head;
mod input;
mod layout;
mod lines;
mod listing;
mod load;
mod marks;
mod medium;
mod output;
mod probe;
mod programs;
mod refusal;
mod rules;
mod signs;
mod totals;
mod view;

#[cfg(test)]
mod cases;
#[cfg(test)]
mod dice;
#[cfg(test)]
mod round_trips;
#[cfg(test)]
mod samples;

use std::env;
use std::ffi::OsString;
use std::io;
use std::process::ExitCode;

const USAGE: &str = "usage: second list|make|probe, reading standard input";

fn main() -> ExitCode {
    let arguments: Vec<OsString> = env::args_os().skip(1).collect();
    let word = match arguments.as_slice() {
        [word] => word.to_str(),
        _ => None,
    };
    let (input, output) = (io::stdin().lock(), io::stdout().lock());
    let done = match word {
        Some("list") => programs::run(listing::list, input, output),
        Some("make") => programs::run(compose::compose, input, output),
        Some("probe") => probe::serve(input, output),
        _ => {
            eprintln!("{USAGE}");
            return ExitCode::from(2);
        }
    };
    match done {
        Ok(()) => ExitCode::SUCCESS,
        Err(error) => {
            eprintln!("second: standard output: {error}");
            ExitCode::FAILURE
        }
    }
}
