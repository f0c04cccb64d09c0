//! The row of the reset, on the library's side only: safe Rust has no function for it, since a capture there is an
//! Option that its owner sets to None.

use super::CALLS;
use crate::order;
use crate::random::Random;
use crate::raw;
use crate::row::Row;
use std::hint::black_box;
use std::rc::Rc;

/// How many captures are forgotten in turn.
const CAPTURES: usize = 64;

/// The row, after the library forgot every capture.
pub fn row() -> Result<Row, String> {
    let mut random = Random::seeded(17);
    let captures: Rc<[raw::Capture]> = (0..CAPTURES).map(|_| draw(&mut random)).collect();
    if captures.iter().any(|&kept| library(kept) != raw::Capture::default()) {
        return Err("reset: a capture is not forgotten".to_string());
    }
    let reset: fn(raw::Capture) -> raw::Capture = black_box(library);
    let pass = order::pass(&captures, CALLS, move |kept| {
        reset(*black_box(kept));
    });
    Ok(Row::new("reset", CALLS, pass, Vec::new()))
}

fn draw(random: &mut Random) -> raw::Capture {
    raw::Capture {
        captured: random.byte() & 1,
        bus: random.byte(),
        device: random.byte() & 31,
    }
}

#[inline(never)]
fn library(kept: raw::Capture) -> raw::Capture {
    black_box(raw::reset(kept))
}
