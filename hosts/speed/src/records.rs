//! The rows of the two records: the same places in the same spaces on both sides.

mod dual_bdf;
mod dvsec;

use crate::measure::Pass;
use crate::order;
use crate::random::Random;
use crate::row::{Peer, Row};
use std::fmt::Debug;
use std::hint::black_box;
use std::rc::Rc;

/// How many spaces a row has, and how many records in each.
const SPACES: usize = 8;
const RECORDS: usize = 8;
/// How many records are read in a pass.
const CALLS: usize = 256;

/// A place that a record is asked for at.
pub struct Place {
    pub space: Rc<[u8]>,
    pub at: usize,
}

/// The places of a row.
pub type Places = Rc<[Place]>;

/// Reads the record at an offset: a function that is not inlined and makes one call to its side. What it answers goes
/// through black_box there, so that it is no mere jump to its side.
type Read<Answer> = fn(&[u8], usize) -> Answer;

/// The rows of both records, after both sides gave equal answers at all places.
pub fn rows() -> Result<Vec<Row>, String> {
    let mut rows = dvsec::rows()?;
    rows.extend(dual_bdf::rows()?);
    Ok(rows)
}

/// Random spaces with drawn records at random multiples of a record's bytes between two offsets.
pub fn places(seed: u64, (from, end): (usize, usize), bytes: usize, draw: fn(&mut Random, &mut [u8])) -> Places {
    let mut random = Random::seeded(seed);
    let mut places = Vec::new();
    for _ in 0..SPACES {
        let mut space = random.bytes(4096);
        let mut offsets: Vec<usize> = (from..=end - bytes).step_by(bytes).collect();
        random.shuffle(&mut offsets);
        offsets.truncate(RECORDS);
        for &at in &offsets {
            draw(&mut random, &mut space[at..]);
        }
        let space: Rc<[u8]> = space.into();
        places.extend(offsets.into_iter().map(|at| Place {
            space: space.clone(),
            at,
        }));
    }
    places.into()
}

/// A row of both sides, after both gave equal answers at every place, which are as the row's name says. The safe Rust
/// side's answer for a space is compared in the form that the library gives it.
fn row<Library: PartialEq + Debug + 'static, SafeRust: 'static>(
    what: &str,
    places: &Places,
    library: Read<Library>,
    safe_rust: Read<SafeRust>,
    in_library_form: fn(SafeRust, &[u8]) -> Library,
    is_as_named: fn(&Library) -> bool,
) -> Result<Row, String> {
    for Place { space, at } in places.iter() {
        let found = library(space, *at);
        let expected = in_library_form(safe_rust(space, *at), space);
        if found != expected || !is_as_named(&expected) {
            return Err(format!(
                "{what}, at {at:03X}h: library {found:?}, safe Rust {expected:?}"
            ));
        }
    }
    let peers = vec![(Peer::SafeRust, pass(safe_rust, places))];
    Ok(Row::new(what, CALLS, pass(library, places), peers))
}

/// Records read by a side, one after the other.
fn pass<Answer: 'static>(read: Read<Answer>, places: &Places) -> Pass {
    let read = black_box(read);
    order::pass(places, CALLS, move |place| {
        read(black_box(&place.space), black_box(place.at));
    })
}
