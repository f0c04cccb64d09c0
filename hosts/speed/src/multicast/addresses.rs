//! The rows of the judging: addresses that hit a group and leave or are dropped, that hit none, and that are refused.

use super::for_safe_rust;
use super::kind::{Draft, KINDS, Kind};
use super::safe_rust::{self, Port};
use crate::measure::Pass;
use crate::order;
use crate::random::Random;
use crate::raw;
use crate::row::{Peer, Row};
use std::hint::black_box;
use std::rc::Rc;

/// How many lists a row has, each with an address.
const LISTS: usize = 64;

/// An address, and the list in the form of a side.
struct Call<Port> {
    ports: Box<[Port]>,
    entering: usize,
    address: u64,
}

/// Judges an address: a function that is not inlined and makes one call to its side. What it answers goes through black_box
/// there, so that it is no mere jump to its side.
type Judge<Port, Answer> = fn(&[Port], usize, u64) -> Answer;

pub fn rows() -> Result<Vec<Row>, String> {
    KINDS.iter().zip(6100..).map(|(kind, seed)| row(kind, seed)).collect()
}

fn row(kind: &Kind, seed: u64) -> Result<Row, String> {
    let mut random = Random::seeded(seed);
    let drafts: Vec<Draft> = (0..LISTS).map(|_| kind.draw(&mut random)).collect();
    let to_library = in_form(&drafts, |groups| *groups);
    let to_safe_rust = in_form(&drafts, for_safe_rust);
    for (library, safe_rust) in to_library.iter().zip(to_safe_rust.iter()) {
        check(kind, library, safe_rust)?;
    }
    let peers = vec![(Peer::SafeRust, pass(by_safe_rust, &to_safe_rust, kind))];
    Ok(Row::new(
        kind.what,
        kind.calls(),
        pass(by_library, &to_library, kind),
        peers,
    ))
}

/// The same calls with every list in the form of a side.
fn in_form<Port>(drafts: &[Draft], form: fn(&raw::Groups) -> Port) -> Rc<[Call<Port>]> {
    let calls = drafts.iter().map(|draft| Call {
        ports: draft.ports.iter().map(form).collect(),
        entering: draft.entering,
        address: draft.address,
    });
    calls.collect()
}

#[inline(never)]
fn by_library(ports: &[raw::Groups], entering: usize, address: u64) -> raw::Judged {
    black_box(raw::judge(ports, entering, address))
}

#[inline(never)]
fn by_safe_rust(ports: &[Port], entering: usize, address: u64) -> Result<safe_rust::Judged, u8> {
    black_box(safe_rust::judge(ports, entering, address))
}

/// Addresses judged by a side, one after the other.
fn pass<Port: 'static, Answer: 'static>(judge: Judge<Port, Answer>, calls: &Rc<[Call<Port>]>, kind: &Kind) -> Pass {
    let judge = black_box(judge);
    order::pass(calls, kind.calls(), move |call| {
        judge(
            black_box(&call.ports),
            black_box(call.entering),
            black_box(call.address),
        );
    })
}

/// Whether both sides give equal answers, which are as the row's name says.
fn check(kind: &Kind, library: &Call<raw::Groups>, safe_rust: &Call<Port>) -> Result<(), String> {
    let found = by_library(&library.ports, library.entering, library.address);
    let expected = in_library_form(by_safe_rust(&safe_rust.ports, safe_rust.entering, safe_rust.address));
    if found != expected || !kind.is_as_named(expected) {
        let (what, address) = (kind.what, library.address);
        return Err(format!(
            "{what}: address {address:X}h: library {found:?}, safe Rust {expected:?}"
        ));
    }
    Ok(())
}

/// Safe Rust's answer in the form that the library gives it.
fn in_library_form(answer: Result<safe_rust::Judged, u8>) -> raw::Judged {
    let (number, verdict, group, ports) = match answer {
        Err(number) => (number, 0, 0, 0),
        Ok(safe_rust::Judged::NoHit) => (0, 1, 0, 0),
        Ok(safe_rust::Judged::Dropped(group)) => (0, 2, group, 0),
        Ok(safe_rust::Judged::Leaves(group, ports)) => (0, 3, group, ports),
    };
    raw::Judged {
        ports,
        number,
        verdict,
        group,
    }
}
