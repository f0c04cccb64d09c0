//! `second`: compares the linked library with the model on random packets, also for boards of two functions, doubled and
//! swapped, spaces, ports, requests, completions, addresses and layouts.
//!
//! Status 0: no difference, and every class was met often enough. Status 1: otherwise. Status 2: bad arguments.

#![forbid(unsafe_code)]

mod arguments;

use std::fmt::Display;
use std::io::{self, Write};
use std::process::ExitCode;

use arguments::{Arguments, HELP, Wish};
use second::compare::{Library, run};

fn main() -> ExitCode {
    match Arguments::read(std::env::args().skip(1)) {
        Ok(Wish::Help) => {
            say(HELP);
            ExitCode::SUCCESS
        }
        Ok(Wish::Run(arguments)) => compare(&arguments),
        Err(message) => {
            eprintln!("second: {message}");
            ExitCode::from(2)
        }
    }
}

/// Runs and reports.
fn compare(arguments: &Arguments) -> ExitCode {
    let Arguments { cases, seed } = *arguments;
    say(format_args!("seed {seed}"));
    match run(&mut Library, seed, cases) {
        Err(failure) => {
            say(&failure);
            say(format_args!("{} cases, 1 difference, seed {seed}", failure.case + 1));
            ExitCode::FAILURE
        }
        Ok(tally) => {
            say(&tally);
            if !tally.is_complete() {
                say("some classes stayed below their minimum");
            }
            say(format_args!("{cases} cases, 0 differences, seed {seed}"));
            if tally.is_complete() {
                ExitCode::SUCCESS
            } else {
                ExitCode::FAILURE
            }
        }
    }
}

/// Writes a line. A reader who has left changes nothing of the status.
fn say(text: impl Display) {
    let _ = writeln!(io::stdout(), "{text}");
}
