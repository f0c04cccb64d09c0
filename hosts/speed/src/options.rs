//! What the command line asks for: the help, a quick measurement or a full one, or a line that says what is wrong.

use crate::measure::Plan;
use std::time::Duration;

pub const HELP: &str = "\
Times the library against its peers and prints a table in Markdown on standard output.

usage: speed [--quick | --help]

  --quick   fewer rounds: about 12 seconds instead of about 180
  --help    this text

Status 0: measured. 1: the sides gave different answers, and nothing was timed. 2: bad arguments.
";

/// About 180 seconds on a machine of two cores.
const FULL: Plan = Plan {
    turns: 40,
    rounds: 230,
    batch: Duration::from_micros(20),
};
/// About 12 seconds.
const QUICK: Plan = Plan {
    turns: 8,
    rounds: 75,
    batch: Duration::from_micros(20),
};

/// What is to be done.
#[derive(Clone, Copy, Debug, PartialEq, Eq)]
pub enum Request {
    Help,
    Measure(Plan),
}

/// Reads the arguments that follow the program's name.
pub fn read(arguments: impl Iterator<Item = String>) -> Result<Request, String> {
    let mut request = Request::Measure(FULL);
    for argument in arguments {
        match (argument.as_str(), request) {
            ("--help", _) => return Ok(Request::Help),
            ("--quick", Request::Measure(FULL)) => request = Request::Measure(QUICK),
            ("--quick", _) => return Err("--quick is given twice".to_string()),
            _ => return Err(format!("unknown argument {argument:?}")),
        }
    }
    Ok(request)
}

#[cfg(test)]
mod tests {
    use super::{FULL, QUICK, Request, read};

    fn answer(arguments: &[&str]) -> Result<Request, String> {
        read(arguments.iter().map(ToString::to_string))
    }

    #[test]
    fn arguments_and_their_answers() {
        assert_eq!(answer(&[]), Ok(Request::Measure(FULL)));
        assert_eq!(answer(&["--quick"]), Ok(Request::Measure(QUICK)));
        assert_eq!(answer(&["--quick", "--help"]), Ok(Request::Help));
        assert!(answer(&["--quick", "--quick"]).is_err());
        assert!(answer(&["quick"]).is_err());
    }
}
