//! The rows of the router: packets that leave by a port of 1, 8 or 32, that get UR, and that are refused.

mod kind;
mod list;
mod sides;

use crate::measure::Pass;
use crate::order;
use crate::random::Random;
use crate::raw;
use crate::row::{Peer, Row};
use kind::{KINDS, Kind};
use list::Range;
use second::model;
use sides::Route;
use std::hint::black_box;
use std::rc::Rc;

/// How many lists a row has, and how many packets for each.
const LISTS: usize = 8;
const PACKETS: usize = 8;
/// What the buffer is filled with before it is lent.
const LENT: u8 = 0xEE;

/// A list and a packet for it.
struct Call<Port> {
    ports: Rc<[Port]>,
    packet: Rc<[u8]>,
}

/// The calls of a row, with the list in the form of a side.
type Calls<Port> = Rc<[Call<Port>]>;

/// The rows of all kinds, after both sides gave equal answers to all their calls.
pub fn rows() -> Result<Vec<Row>, String> {
    KINDS.iter().zip(4000..).map(|(kind, seed)| row(kind, seed)).collect()
}

fn row(kind: &Kind, seed: u64) -> Result<Row, String> {
    let calls = draw(kind, &mut Random::seeded(seed));
    let to_library = in_form(&calls, Range::for_library);
    let to_safe_rust = in_form(&calls, Range::for_safe_rust);
    for (library, safe_rust) in to_library.iter().zip(to_safe_rust.iter()) {
        check(kind, library, safe_rust)?;
    }
    let peers = vec![(Peer::SafeRust, pass(sides::safe_rust, &to_safe_rust, kind))];
    Ok(Row::new(
        kind.what,
        kind.calls(),
        pass(sides::library, &to_library, kind),
        peers,
    ))
}

/// Lists of a kind, and packets for each.
fn draw(kind: &Kind, random: &mut Random) -> Vec<Call<Range>> {
    let mut calls = Vec::new();
    for _ in 0..LISTS {
        let ports: Rc<[Range]> = (kind.list)(random, kind.ports).into();
        calls.extend((0..PACKETS).map(|_| Call {
            packet: (kind.packet)(random, &ports).into_bytes().into(),
            ports: ports.clone(),
        }));
    }
    calls
}

/// The same calls with every list in the form of a side.
fn in_form<Port>(calls: &[Call<Range>], form: fn(&Range) -> Port) -> Calls<Port> {
    let mut lists: Vec<Rc<[Port]>> = Vec::new();
    let with_list = |(place, call): (usize, &Call<Range>)| {
        if place % PACKETS == 0 {
            lists.push(call.ports.iter().map(form).collect());
        }
        Call {
            ports: lists[place / PACKETS].clone(),
            packet: call.packet.clone(),
        }
    };
    calls.iter().enumerate().map(with_list).collect()
}

/// Packets routed by a side, one after the other.
fn pass<Port: 'static, Answer: 'static>(route: Route<Port, Answer>, calls: &Calls<Port>, kind: &Kind) -> Pass {
    let mut leaving = vec![LENT; kind.room];
    let route = black_box(route);
    order::pass(calls, kind.calls(), move |call| {
        route(black_box(&call.ports), black_box(&call.packet), black_box(&mut leaving));
    })
}

/// Whether both sides give equal answers, which are as the row's name says, and equal bytes in all of the buffer.
fn check(kind: &Kind, library: &Call<raw::Port>, safe_rust: &Call<model::Port>) -> Result<(), String> {
    let (what, packet) = (kind.what, &library.packet);
    let mut buffers = [vec![LENT; kind.room], vec![LENT; kind.room]];
    let found = sides::library(&library.ports, packet, &mut buffers[0]);
    let expected = sides::in_library_form(sides::safe_rust(&safe_rust.ports, packet, &mut buffers[1]));
    if found != expected || !kind.is_as_named(expected, packet, &buffers[1]) {
        return Err(format!(
            "{what}: packet {packet:02X?}: library {found:?}, safe Rust {expected:?}"
        ));
    }
    if buffers[0] != buffers[1] {
        return Err(format!(
            "{what}: packet {packet:02X?}: the library's buffer differs from safe Rust's"
        ));
    }
    Ok(())
}
