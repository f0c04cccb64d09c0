//! The rows of new boards: extended lists of 1, 12, 96 and 960 structures that are planned, checked and written.

mod draft;
mod kind;
mod lent;
mod safe_rust;
mod sides;

#[cfg(test)]
mod agreement;

use crate::measure::Pass;
use crate::order;
use crate::random::Random;
use crate::raw;
use crate::row::{Peer, Row};
use draft::Draft;
use kind::{KINDS, Kind};
use lent::Lent;
use safe_rust::Structure;
use sides::Work;
use std::hint::black_box;
use std::rc::Rc;

/// How many layouts a row has.
const LAYOUTS: usize = 8;

/// Offsets, and the structures in the form of a side.
struct Call<Structure> {
    structures: Box<[Structure]>,
    offsets: Box<[u16]>,
}

/// The rows of all kinds, after both sides gave equal answers to all their layouts.
pub fn rows() -> Result<Vec<Row>, String> {
    KINDS.iter().zip(7000..).map(|(kind, seed)| row(kind, seed)).collect()
}

fn row(kind: &Kind, seed: u64) -> Result<Row, String> {
    let mut random = Random::seeded(seed);
    let drafts: Vec<Draft> = (0..LAYOUTS).map(|_| kind.draw(&mut random)).collect();
    let to_library = in_form(&drafts, |structure| *structure);
    let to_safe_rust = in_form(&drafts, for_safe_rust);
    let lent = Lent::draw(&mut random);
    for (library, safe_rust) in to_library.iter().zip(to_safe_rust.iter()) {
        check(kind, library, safe_rust, &lent)?;
    }
    let by_library = pass(sides::library(kind.job), &to_library, kind, &lent);
    let by_safe_rust = pass(sides::safe_rust(kind.job), &to_safe_rust, kind, &lent);
    let peers = vec![(Peer::SafeRust, by_safe_rust)];
    Ok(Row::new(kind.what, kind.calls(), by_library, peers))
}

/// The same calls with the structures in the form of a side.
fn in_form<Structure>(drafts: &[Draft], form: fn(&raw::Structure) -> Structure) -> Rc<[Call<Structure>]> {
    let calls = drafts.iter().map(|draft| Call {
        structures: draft.structures.iter().map(form).collect(),
        offsets: draft.offsets.as_slice().into(),
    });
    calls.collect()
}

fn for_safe_rust(structure: &raw::Structure) -> Structure {
    Structure {
        id: structure.id,
        version: structure.version,
        length: structure.length,
    }
}

/// Layouts that a side works on, one after the other.
fn pass<Structure: 'static>(work: Work<Structure>, calls: &Rc<[Call<Structure>]>, kind: &Kind, lent: &Lent) -> Pass {
    let work = black_box(work);
    let mut lent = lent.clone();
    order::pass(calls, kind.calls(), move |call| {
        work(
            black_box(&call.structures),
            black_box(&call.offsets),
            black_box(&mut lent),
        );
    })
}

/// Whether both sides give the row's number and leave the same in all that is lent.
fn check(kind: &Kind, library: &Call<raw::Structure>, safe_rust: &Call<Structure>, lent: &Lent) -> Result<(), String> {
    let what = kind.what;
    let mut left = [lent.clone(), lent.clone()];
    let found = sides::library(kind.job)(&library.structures, &library.offsets, &mut left[0]);
    let expected = sides::safe_rust(kind.job)(&safe_rust.structures, &safe_rust.offsets, &mut left[1]);
    if found != expected || expected != kind.number {
        return Err(format!("{what}: library {found}, safe Rust {expected}"));
    }
    if left[0] != left[1] || !kind.is_as_named(lent, &left[1]) {
        return Err(format!(
            "{what}: what the library leaves is not what safe Rust leaves, or not as named"
        ));
    }
    Ok(())
}
