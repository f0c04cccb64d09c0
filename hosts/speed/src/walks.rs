//! The rows of walks: lists of several lengths and layouts, loops, and refused walks.

mod chain;
mod chase;
mod kind;
mod sides;

use crate::measure::Pass;
use crate::order;
use crate::random::Random;
use crate::row::{Peer, Row};
use kind::{KINDS, Kind};
use sides::Walk;
use std::hint::black_box;
use std::rc::Rc;

/// How many spaces of its kind a row has.
const SPACES: usize = 8;
/// What the list room is filled with before it is lent.
const LENT: u16 = 0xAAAA;

/// The spaces of a row.
type Spaces = Rc<[Box<[u8]>]>;

/// The rows of all kinds, after all sides gave equal answers to all their spaces.
pub fn rows() -> Result<Vec<Row>, String> {
    KINDS.iter().zip(1000..).map(|(kind, seed)| row(kind, seed)).collect()
}

fn row(kind: &Kind, seed: u64) -> Result<Row, String> {
    let mut random = Random::seeded(seed);
    let spaces: Spaces = (0..SPACES).map(|_| kind.draw(&mut random)).collect();
    for space in spaces.iter() {
        check(kind, space)?;
    }
    let mut peers = vec![(Peer::SafeRust, pass(sides::safe_rust(kind.list), &spaces, kind))];
    if kind.followed().is_some() {
        peers.push((Peer::Chase, pass(sides::chase(kind.list), &spaces, kind)));
    }
    Ok(Row::new(
        kind.what,
        kind.calls(),
        pass(sides::library(kind.list), &spaces, kind),
        peers,
    ))
}

/// Walks of a side through spaces, one after the other.
fn pass(walk: Walk, spaces: &Spaces, kind: &Kind) -> Pass {
    let mut room = vec![LENT; kind.room];
    let walk = black_box(walk);
    order::pass(spaces, kind.calls(), move |space| {
        walk(black_box(space), black_box(&mut room));
    })
}

/// Whether the library and safe Rust give the row's answer, tell the same place and give equal lists, the rest of the
/// room included, and the chase counts the headers that are followed.
fn check(kind: &Kind, space: &[u8]) -> Result<(), String> {
    let what = kind.what;
    let mut rooms = [vec![LENT; kind.room], vec![LENT; kind.room]];
    let safe_rust = sides::safe_rust(kind.list)(space, &mut rooms[0]);
    let library = sides::library(kind.list)(space, &mut rooms[1]);
    if safe_rust != library || !kind.expects(library) {
        return Err(format!("{what}: safe Rust {safe_rust:?}, library {library:?}"));
    }
    if rooms[0] != rooms[1] {
        return Err(format!("{what}: the library's list differs from safe Rust's"));
    }
    match kind.followed() {
        Some(headers) if sides::chase(kind.list)(space, &mut []).count != headers => {
            Err(format!("{what}: the bare chase does not count {headers} headers"))
        }
        _ => Ok(()),
    }
}
