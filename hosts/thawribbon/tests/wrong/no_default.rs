//! A reading that was refused, made up for by a default value: a radar would be missing, and every answer would be "no hit". rustc has to
//! refuse it, since fields have no default.
//!
//! tests/rust.sh compiles this; it is no test of the package, and is never run.
use thawribbon::Groups;

fn main() {}

pub fn of_any_space(space: &[u8]) -> Groups {
    Groups::read(space, 0x100).unwrap_or_default()
}
