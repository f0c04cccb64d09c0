//! A board of two functions that both have one ordinary space: rustc has to refuse it, since it is written by each.
//!
//! tests/rust.sh compiles this; it is no test of the package, and is never run.
use thawribbon::{Edition, Function, NO_MARKS, NotDone, Pair, SPACE, Side, Space};

fn main() {}

pub fn serve(packet: &[u8]) -> Result<(), NotDone> {
    let [mut ordinary, mut one, mut two, rules] = [[0; SPACE]; 4];
    let mut pair = Pair {
        edition: Edition::One,
        primary: Side::fresh(
            Function { function: 0, a: 0x104, b: 0x00C },
            Space { bytes: &mut ordinary, rules: &rules, marks: &NO_MARKS },
            Space { bytes: &mut one, rules: &rules, marks: &NO_MARKS },
        ),
        alternate: Side::fresh(
            Function { function: 1, a: 0x104, b: 0x00C },
            Space { bytes: &mut ordinary, rules: &rules, marks: &NO_MARKS },
            Space { bytes: &mut two, rules: &rules, marks: &NO_MARKS },
        ),
    };
    pair.serve(packet).map(|_| ())
}
