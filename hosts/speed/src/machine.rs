//! The heading of the output: when, on what machine, by which compilers, and how it was measured.

use crate::measure::Plan;
use std::process::Command;

/// Prints the heading in Markdown.
pub fn print_heading(plan: Plan) {
    let cores = std::thread::available_parallelism().map_or_else(|_| "unknown".to_string(), |count| count.to_string());
    println!("- Date: {}", output_of("date", &["-u", "+%Y-%m-%d"]));
    println!(
        "- Machine: {}, {}, {cores} cores",
        output_of("uname", &["-m"]),
        processor()
    );
    println!("- Compilers: {}; {}", env!("SPEED_RUSTC"), env!("SPEED_CC"));
    println!("- Method: one process; all sides on the same inputs, checked to give equal answers before the timing.");
    println!(
        "  Every side is called through a function pointer to a function that is not inlined; {} rounds by turns, each",
        plan.turns * plan.rounds
    );
    println!(
        "  a batch of about {} µs of every side; ns per call are medians over the rounds.",
        plan.batch.as_micros()
    );
    println!(
        "- Ratios: library / peer, of the medians; below 1.00 the library is quicker. In brackets the quartiles of the"
    );
    println!("  ratios of single rounds.");
    println!();
}

/// The processor's name as lscpu or /proc/cpuinfo tells it.
fn processor() -> String {
    let listed = output_of_all("lscpu", &[]) + &std::fs::read_to_string("/proc/cpuinfo").unwrap_or_default();
    let name = listed.lines().find_map(|line| {
        let (key, value) = line.split_once(':')?;
        key.trim()
            .eq_ignore_ascii_case("model name")
            .then(|| value.trim().to_string())
    });
    name.unwrap_or_else(|| "processor without a name".to_string())
}

/// The first line that a command prints.
fn output_of(command: &str, arguments: &[&str]) -> String {
    output_of_all(command, arguments)
        .lines()
        .next()
        .unwrap_or("unknown")
        .to_string()
}

/// All that a command prints, or nothing where there is no such command.
fn output_of_all(command: &str, arguments: &[&str]) -> String {
    let output = Command::new(command).args(arguments).env("LC_ALL", "C").output();
    output
        .map(|output| String::from_utf8_lossy(&output.stdout).into_owned())
        .unwrap_or_default()
}
