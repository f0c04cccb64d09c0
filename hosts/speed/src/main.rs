//! Times the library beside its peers, in one process and on the same inputs, and prints the figures as a table.
//!
//! Before anything is timed, every input of every row is given to all sides, and their answers must be equal.

mod asks;
mod layouts;
mod machine;
mod measure;
mod merges;
mod multicast;
mod options;
mod order;
mod packets;
mod pairs;
mod random;
mod records;
mod routes;
mod row;
mod table;
mod walks;

use measure::{Contest, Plan};
use options::Request;
use std::process::ExitCode;
// The library's functions. What they do, which is to pass a slice on as a pointer and a length, is inlined here, so that every side is
// one call away.
use thawribbon::raw;

fn main() -> ExitCode {
    match options::read(std::env::args().skip(1)) {
        Ok(Request::Help) => {
            print!("{}", options::HELP);
            ExitCode::SUCCESS
        }
        Ok(Request::Measure(plan)) => match measure_all(plan) {
            Ok(()) => ExitCode::SUCCESS,
            Err(difference) => {
                eprintln!("speed: the sides differ, so nothing was timed: {difference}");
                ExitCode::FAILURE
            }
        },
        Err(message) => {
            eprintln!("speed: {message}; --help tells the options");
            ExitCode::from(2)
        }
    }
}

/// Checks every input, times every row and every variant, and prints the tables.
fn measure_all(plan: Plan) -> Result<(), String> {
    let mut rows = packets::rows()?;
    rows.extend(merges::rows()?);
    rows.extend(walks::rows()?);
    rows.extend(records::rows()?);
    rows.extend(routes::rows()?);
    rows.extend(asks::rows()?);
    rows.extend(multicast::rows()?);
    rows.extend(layouts::rows()?);
    rows.extend(pairs::rows()?);
    let mut variants = packets::variants::all()?;
    let row_contests = rows.iter_mut().map(|row| &mut row.contest);
    let variant_contests = variants.iter_mut().map(|variants| &mut variants.contest);
    let mut contests: Vec<&mut Contest> = row_contests.chain(variant_contests).collect();
    measure::run(plan, &mut contests);
    machine::print_heading(plan);
    table::print_rows(&rows);
    table::print_looks(&rows);
    table::print_pairs(&rows);
    table::print_variants(&variants);
    table::print_summary(&rows);
    table::print_growth(&rows);
    table::print_reading(&rows);
    Ok(())
}
