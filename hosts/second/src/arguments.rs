//! The command line: read once, with one clear line for each way to get it wrong.

use std::time::{SystemTime, UNIX_EPOCH};

/// The cases of a run that names no number.
const DEFAULT_CASES: u64 = 3_000_000;

/// What `--help` prints.
pub const HELP: &str = "\
usage: second [--cases N] [--seed N]

Compares the linked library with an independent model of document 01 and of the
requests 1/13 to 3/13 and 5/13 to 12/13 on random packets, also for boards of
two functions, doubled and swapped, lists, records, ports, requests,
completions, addresses and layouts, and counts the classes of calls that were
reached.

  --cases N   how many calls are compared (3000000)
  --seed N    the seed of the run (from the clock); the same seed gives the same run
  --help      this text

A run of a million calls or more asks for a least count of every class.

Status 0: no difference, and every class as often as its minimum. Status 1:
a difference, or a class below its minimum. Status 2: bad arguments.";

/// What a run is given.
#[derive(Debug, PartialEq, Eq)]
pub struct Arguments {
    pub cases: u64,
    pub seed: u64,
}

/// What the command line asks for.
#[derive(Debug, PartialEq, Eq)]
pub enum Wish {
    Help,
    Run(Arguments),
}

impl Arguments {
    /// Reads the words after the program's name, or says what is wrong with them.
    pub fn read(words: impl Iterator<Item = String>) -> Result<Wish, String> {
        let mut words = words;
        let (mut cases, mut seed) = (None, None);
        while let Some(word) = words.next() {
            let place = match word.as_str() {
                "--help" | "-h" => return Ok(Wish::Help),
                "--cases" => &mut cases,
                "--seed" => &mut seed,
                _ => return Err(format!("unknown argument '{word}' (try --help)")),
            };
            if place.is_some() {
                return Err(format!("{word} is given twice"));
            }
            let value = words.next().ok_or_else(|| format!("{word} needs a number"))?;
            *place = Some(
                value
                    .parse()
                    .map_err(|_| format!("{word} needs a number from 0 to 2^64 - 1, not '{value}'"))?,
            );
        }
        Ok(Wish::Run(Self {
            cases: cases.unwrap_or(DEFAULT_CASES),
            seed: seed.unwrap_or_else(seed_from_clock),
        }))
    }
}

/// A seed that differs from run to run.
fn seed_from_clock() -> u64 {
    SystemTime::now()
        .duration_since(UNIX_EPOCH)
        .map_or(1, |since| since.as_nanos() as u64)
}

#[cfg(test)]
mod tests {
    use super::{Arguments, DEFAULT_CASES, Wish};

    fn read(line: &str) -> Result<Wish, String> {
        Arguments::read(line.split_whitespace().map(String::from))
    }

    #[test]
    fn numbers_are_taken_in_any_order() {
        let wish = Ok(Wish::Run(Arguments { cases: 5, seed: 7 }));
        assert_eq!(read("--cases 5 --seed 7"), wish);
        assert_eq!(read("--seed 7 --cases 5"), wish);
        assert_eq!(
            read("--seed 7"),
            Ok(Wish::Run(Arguments {
                cases: DEFAULT_CASES,
                seed: 7
            }))
        );
        assert_eq!(read("--seed 7 --help"), Ok(Wish::Help));
    }

    #[test]
    fn wrong_words_are_refused() {
        for line in [
            "--cases",
            "--cases x",
            "--cases -1",
            "--seed 1 --seed 1",
            "--other",
            "5",
        ] {
            assert!(read(line).is_err(), "{line}");
        }
    }
}
