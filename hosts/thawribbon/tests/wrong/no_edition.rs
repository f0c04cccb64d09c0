//! A description as it was before there were editions, one with whatever edition is the default, and a board of two functions without one:
//! rustc has to refuse all three, since a host says which edition its board has.
//!
//! tests/rust.sh compiles this; it is no test of the package, and is never run.
use thawribbon::{Description, Pair, Side};

fn main() {}

pub fn as_before() -> Description {
    Description { function: 0, a: 0x104, b: 0x00C }
}

pub fn whatever() -> Description {
    Description { function: 0, a: 0x104, b: 0x00C, edition: Default::default() }
}

pub fn of_two<'a>(primary: Side<'a>, alternate: Side<'a>) -> Pair<'a> {
    Pair { primary, alternate }
}
