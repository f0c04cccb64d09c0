//! A layout made by hand, which no checker has seen: rustc has to refuse it.
//!
//! tests/rust.sh compiles this; it is no test of the package, and is never run.
use thawribbon::{Layout, Refusal, Structure};

fn main() {}

pub fn write(structures: &[Structure], offsets: &[u16], space: &mut [u8]) -> Result<(), Refusal> {
    Layout { structures, offsets }.write(space)
}
