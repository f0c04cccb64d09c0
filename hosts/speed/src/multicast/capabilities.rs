//! The rows of the reading: a capability that is read, and those that are refused.

use super::safe_rust::{self, Port};
use super::{draw_groups, in_library_form};
use crate::measure::Pass;
use crate::order;
use crate::random::Random;
use crate::raw;
use crate::records::{Place, Places, places};
use crate::row::{Peer, Row};
use std::hint::black_box;

/// Where capabilities are put, and their bytes.
const BOUNDS: (usize, usize) = (0x100, 0x1000);
const BYTES: usize = 0x28;
/// How many are read in a pass.
const CALLS: usize = 256;

/// Capabilities of a kind, and the number that each must get.
struct Kind {
    what: &'static str,
    draw: fn(&mut Random, &mut [u8]),
    number: u64,
}

const KINDS: [Kind; 3] = [
    Kind {
        what: "multicast, a capability is read",
        draw,
        number: 0,
    },
    Kind {
        what: "multicast, refused 8, another ID or version",
        draw: |random, left| {
            draw(random, left);
            let (byte, bits) = random.pick(&[(0, 0xFF), (1, 0xFF), (2, 0x0F)]);
            left[byte] ^= 1 + random.below(bits) as u8;
        },
        number: 8,
    },
    Kind {
        what: "multicast, refused 13, Num Group over Max Group",
        draw: |random, left| {
            draw(random, left);
            let maximum = random.byte() % 63;
            left[4] = left[4] & 0xC0 | maximum;
            left[6] = left[6] & 0xC0 | (maximum + 1 + random.below(usize::from(63 - maximum)) as u8);
        },
        number: 13,
    },
];

/// Writes a capability that is read, with every bit that is no field's as it is.
fn draw(random: &mut Random, left: &mut [u8]) {
    let groups = draw_groups(random);
    left[..2].copy_from_slice(&[0x12, 0x00]);
    left[2] = left[2] & 0xF0 | 1;
    left[4] = left[4] & 0xC0 | groups.max_group as u8;
    left[6] = left[6] & 0xC0 | groups.num_group as u8;
    left[8..0x10].copy_from_slice(&(groups.base | random.number() & 0xFC0 | groups.index).to_le_bytes());
}

/// Reads the capability at an offset: a function that is not inlined and makes one call to its side. What it answers goes
/// through black_box there, so that it is no mere jump to its side; the library's number as a whole word, for a byte would
/// lie in a word of the stack that is read as a whole on return. The library is lent the fields, which it writes.
type Read<Answer> = fn(&[u8], usize, &mut raw::Groups) -> Answer;

pub fn rows() -> Result<Vec<Row>, String> {
    KINDS.iter().zip(6000..).map(|(kind, seed)| row(kind, seed)).collect()
}

fn row(kind: &Kind, seed: u64) -> Result<Row, String> {
    let places = places(seed, BOUNDS, BYTES, kind.draw);
    for place in places.iter() {
        check(kind, place)?;
    }
    let peers = vec![(Peer::SafeRust, pass(by_safe_rust, &places))];
    Ok(Row::new(kind.what, CALLS, pass(by_library, &places), peers))
}

#[inline(never)]
fn by_library(space: &[u8], at: usize, groups: &mut raw::Groups) -> u64 {
    black_box(raw::multicast(space, at, groups).into())
}

#[inline(never)]
fn by_safe_rust(space: &[u8], at: usize, _: &mut raw::Groups) -> Result<Port, u8> {
    black_box(safe_rust::read(space, at))
}

/// Capabilities read by a side, one after the other.
fn pass<Answer: 'static>(read: Read<Answer>, places: &Places) -> Pass {
    let read = black_box(read);
    let mut groups = raw::Groups::ZEROS;
    order::pass(places, CALLS, move |place| {
        read(black_box(&place.space), black_box(place.at), black_box(&mut groups));
    })
}

/// Whether both sides give equal answers, which are as the row's name says.
fn check(kind: &Kind, Place { space, at }: &Place) -> Result<(), String> {
    let mut groups = raw::Groups {
        base: u64::MAX,
        ..raw::Groups::ZEROS
    };
    let found = (by_library(space, *at, &mut groups), groups);
    let expected = match by_safe_rust(space, *at, &mut groups) {
        Ok(port) => (0, in_library_form(port)),
        Err(number) => (number.into(), raw::Groups::ZEROS),
    };
    if found != expected || expected.0 != kind.number {
        let what = kind.what;
        return Err(format!(
            "{what}, at {at:03X}h: library {found:X?}, safe Rust {expected:X?}"
        ));
    }
    Ok(())
}
