//! Prints the measured figures in Markdown.

use crate::packets::variants::Variants;
use crate::row::{Peer, Row};

/// What the peers leave out, and what every figure holds.
const NOTES: &str = "\
- C masks tests no sizes and no ranges, knows no editions and looks at no rules and marks (peer.c says what it leaves
  out), and branches on every enable of a write: its branches are predicted only where the enables are the same in all
  packets.
- Bare chase follows and counts the pointers, tests nothing and lists nothing; in a loop it stops at the maximum.
- Merge alone: the library exports no merge; its side is the same proved function, in an archive of the benchmark's own.
- Pair: safe Rust takes a packet apart once, looks at both spaces of a function at once, and is compiled into the function
  that calls it; the library is given 34 words by a call.
- Every figure holds the calls and the loop around them; the row `reset` is hardly more than that.
- In rows of a few ns, where the linker happens to put a function makes a difference of a cycle or two.
";

/// Prints one line for every row: the library, then each peer with its ratio.
pub fn print_rows(rows: &[Row]) {
    println!("| what | library ns | safe Rust ns | ratio | C masks ns | ratio | bare chase ns | ratio |");
    println!("|---|---:|---:|---|---:|---|---:|---|");
    for row in rows {
        print_row(row, [Peer::SafeRust, Peer::Masks, Peer::Chase]);
    }
    println!("\n{NOTES}");
}

/// Whether a row is one of packets that are served on a board of two functions.
fn is_of_two(row: &&Row) -> bool {
    row.side(Peer::ByHand).is_some()
}

/// The rows of packets that are served on a board of one function.
fn served_by_one(rows: &[Row]) -> impl Iterator<Item = &Row> {
    let served = rows.iter().filter(|row| row.side(Peer::Reading).is_some());
    served.filter(|row| !is_of_two(row))
}

/// The rows of packets that are served on a board of two.
fn served_by_two(rows: &[Row]) -> impl Iterator<Item = &Row> {
    rows.iter().filter(is_of_two)
}

/// Prints what packets that are served take beside the look at all rules and marks, and beside reading them once.
pub fn print_looks(rows: &[Row]) {
    println!(
        "The look at all rules and marks, 16 KiB for every packet: a C loop that has it, the look by itself, and the same"
    );
    println!("16 KiB read once (look.c, compiled by the kit's clang as the library is).\n");
    println!("| what | library ns | C masks with the look ns | ratio | look alone ns | ratio | read once ns | ratio |");
    println!("|---|---:|---:|---|---:|---|---:|---|");
    for row in served_by_one(rows) {
        print_row(row, [Peer::Looking, Peer::Look, Peer::Reading]);
    }
    println!();
}

/// Prints the same of a board of two functions, and beside it what the library's entry for one function takes.
pub fn print_pairs(rows: &[Row]) {
    println!(
        "A board of two functions, with 32 KiB of rules and marks: the same, and the library's entry for one function, on"
    );
    println!(
        "that which serves the packet: by hand, after a look in C at the other, so that a packet is taken apart once; and"
    );
    println!("alone, where there is no other.\n");
    println!(
        "| what | library ns | C masks with the looks ns | ratio | looks alone ns | ratio | read once ns | ratio | by hand ns | ratio | one function ns | ratio |"
    );
    println!("|---|---:|---:|---|---:|---|---:|---|---:|---|---:|---|");
    let peers = [Peer::Looking, Peer::Look, Peer::Reading, Peer::ByHand, Peer::Alone];
    for row in served_by_two(rows) {
        print_row(row, peers);
    }
    println!();
}

/// Prints a line: the library, then each peer with its ratio.
fn print_row<const PEERS: usize>(row: &Row, peers: [Peer; PEERS]) {
    let cells = peers.map(|peer| peer_cells(row, peer)).join(" | ");
    println!("| {} | {} | {cells} |", row.what, nanoseconds(row.contest.median(0)));
}

/// A peer's time and ratio, or two empty cells.
fn peer_cells(row: &Row, peer: Peer) -> String {
    let (Some(side), Some(ratio)) = (row.side(peer), row.ratio(peer)) else {
        return " | ".to_string();
    };
    let spread = row.contest.ratios(side);
    let median = nanoseconds(row.contest.median(side));
    format!("{median} | {ratio:.2} ({:.2} to {:.2})", spread.lower, spread.upper)
}

fn nanoseconds(time: f64) -> String {
    if time < 100.0 {
        format!("{time:.2}")
    } else {
        format!("{time:.0}")
    }
}

/// Prints how far apart the variants of one kind of packet are on each side.
pub fn print_variants(all: &[Variants]) {
    println!(
        "A served packet's time by its contents: offset low or high; enables 0, 1 or 15; rules and marks 00h, or one of"
    );
    println!("them FFh; data 00h or FFh. The control times the same packets on as many boards: its spread is noise.\n");
    println!("| packets | side | variants | fastest ns | slowest ns | spread |");
    println!("|---|---|---:|---|---|---:|");
    for variants in all {
        let contest = &variants.contest;
        let mut times: Vec<(f64, &String)> = variants
            .names
            .iter()
            .enumerate()
            .map(|(side, name)| (contest.median(side), name))
            .collect();
        times.sort_by(|left, right| left.0.total_cmp(&right.0));
        let (Some((fastest, fastest_name)), Some((slowest, slowest_name))) = (times.first(), times.last()) else {
            continue;
        };
        println!(
            "| {} | {} | {} | {fastest:.2} ({fastest_name}) | {slowest:.2} ({slowest_name}) | {:.1} % |",
            variants.packets,
            variants.side,
            times.len(),
            100.0 * (slowest / fastest - 1.0)
        );
    }
    println!();
}

/// How many times the reading of its board's rules and marks a served packet may take.
const AIM: f64 = 1.5;

/// Prints how many times the reading of the same bytes a served packet of each kind takes, and whether that is as aimed at: on
/// a board of one function, and on a board of two.
pub fn print_reading(rows: &[Row]) {
    print_readings("A served packet takes", 16, served_by_one(rows));
    print_readings(
        "A packet served on a board of two functions takes",
        32,
        served_by_two(rows),
    );
}

fn print_readings<'rows>(takes: &str, kibibytes: u32, rows: impl Iterator<Item = &'rows Row>) {
    let mut ratios: Vec<(f64, &str)> = rows
        .filter_map(|row| Some((row.ratio(Peer::Reading)?, row.what.as_str())))
        .collect();
    ratios.sort_by(|left, right| right.0.total_cmp(&left.0));
    let Some((most, _)) = ratios.first() else { return };
    let verdict = if *most <= AIM { "within" } else { "NOT within" };
    let named: Vec<String> = ratios
        .iter()
        .map(|(ratio, what)| format!("{what} ({ratio:.3})"))
        .collect();
    println!("{takes} at most {most:.2} times the reading of the same {kibibytes} KiB, {verdict} {AIM}.");
    println!("By kind: {}.", named.join("; "));
}

/// Prints the rows in which the library is not ahead of safe Rust, and the full extended walk beside the bare chase.
pub fn print_summary(rows: &[Row]) {
    let ratios: Vec<(&str, f64)> = rows
        .iter()
        .filter_map(|row| Some((row.what.as_str(), row.ratio(Peer::SafeRust)?)))
        .collect();
    let (behind, ahead): (Vec<_>, Vec<_>) = ratios.iter().partition(|(_, ratio)| *ratio >= 1.0);
    println!(
        "The library is ahead of safe Rust in {} of {} rows.",
        ahead.len(),
        ratios.len()
    );
    if !behind.is_empty() {
        let named: Vec<String> = behind
            .iter()
            .map(|(what, ratio)| format!("{what} ({ratio:.3})"))
            .collect();
        println!("Not ahead: {}.", named.join("; "));
    }
    let full = rows.iter().filter(|row| row.what.starts_with("walk, extended, 960"));
    let ratio = full.filter_map(|row| row.ratio(Peer::Chase)).fold(0.0, f64::max);
    println!("An extended walk of 960 headers takes at most {ratio:.2} times the bare chase.");
}

/// Prints what a structure of a layout takes where there are 96 and where there are 960: the same, if time grows with the count.
pub fn print_growth(rows: &[Row]) {
    let each = |job: &str, count: u32| {
        let what = format!("layout, {job}, {count} structures");
        let row = rows.iter().find(|row| row.what == what)?;
        Some(row.contest.median(0) / f64::from(count))
    };
    let of_job = |job: &str| Some(format!("{job} {:.2} and {:.2}", each(job, 96)?, each(job, 960)?));
    let all: Vec<String> = ["planned", "checked", "written"]
        .into_iter()
        .filter_map(of_job)
        .collect();
    println!(
        "A structure of a layout takes, in ns, where there are 96 and where there are 960: {}.",
        all.join("; ")
    );
}
