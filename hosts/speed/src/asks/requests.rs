//! The rows of the writer: reads and writes of every type, and what is refused.

use super::safe_rust;
use super::{CALLS, INPUTS};
use crate::measure::Pass;
use crate::order;
use crate::random::Random;
use crate::raw;
use crate::row::{Peer, Row};
use std::hint::black_box;
use std::rc::Rc;

/// What the buffer is filled with before it is lent.
const LENT: u8 = 0xEE;

/// Parts of a kind, the buffer that is lent for them, and the answer that they must get.
struct Kind {
    what: &'static str,
    codes: [u8; 3],
    spoil: fn(&mut raw::Parts),
    room: usize,
    answer: raw::Written,
}

const READS: [u8; 3] = [0x04, 0x05, 0x1B];
const WRITES: [u8; 3] = [0x44, 0x45, 0x5B];

const KINDS: [Kind; 4] = [
    kind("ask, a read is written", READS, 16, written(12, 0)),
    kind("ask, a write is written", WRITES, 16, written(16, 0)),
    Kind {
        spoil: |parts| parts.enables |= 0x10,
        ..kind("ask, refused 1, enables over 15", WRITES, 16, written(0, 1))
    },
    kind("ask, refused 2, a buffer of 15 bytes", WRITES, 15, written(0, 2)),
];

const fn kind(what: &'static str, codes: [u8; 3], room: usize, answer: raw::Written) -> Kind {
    Kind {
        what,
        codes,
        spoil: |_| {},
        room,
        answer,
    }
}

const fn written(length: usize, number: u8) -> raw::Written {
    raw::Written { length, number }
}

/// Writes a request into a buffer: a function that is not inlined and makes one call to its side. What it answers goes
/// through black_box there, so that it is no mere jump to its side.
type Write<Parts, Answer> = fn(Parts, &mut [u8]) -> Answer;

pub fn rows() -> Result<Vec<Row>, String> {
    KINDS.iter().zip(5000..).map(|(kind, seed)| row(kind, seed)).collect()
}

fn row(kind: &Kind, seed: u64) -> Result<Row, String> {
    let mut random = Random::seeded(seed);
    let to_library: Rc<[raw::Parts]> = (0..INPUTS).map(|_| draw(kind, &mut random)).collect();
    let to_safe_rust: Rc<[safe_rust::Parts]> = to_library.iter().map(for_safe_rust).collect();
    for (library, safe_rust) in to_library.iter().zip(to_safe_rust.iter()) {
        check(kind, *library, *safe_rust)?;
    }
    let peers = vec![(Peer::SafeRust, pass(by_safe_rust, &to_safe_rust, kind.room))];
    Ok(Row::new(
        kind.what,
        CALLS,
        pass(by_library, &to_library, kind.room),
        peers,
    ))
}

fn draw(kind: &Kind, random: &mut Random) -> raw::Parts {
    let mut parts = raw::Parts {
        offset: 4 * random.below(1024) as u32,
        kind: random.pick(&kind.codes),
        requester: [random.byte(), random.byte()],
        tag: random.byte(),
        bus: random.byte(),
        device: random.byte() & 31,
        function: random.byte() & 7,
        enables: random.byte() & 15,
        data: (random.number() as u32).to_le_bytes(),
    };
    (kind.spoil)(&mut parts);
    parts
}

fn for_safe_rust(parts: &raw::Parts) -> safe_rust::Parts {
    safe_rust::Parts {
        kind: parts.kind,
        requester: parts.requester,
        tag: parts.tag,
        bus: parts.bus,
        device: parts.device,
        function: parts.function,
        offset: parts.offset,
        enables: parts.enables,
        data: parts.data,
    }
}

#[inline(never)]
fn by_library(parts: raw::Parts, buffer: &mut [u8]) -> raw::Written {
    black_box(raw::write_request(parts, buffer))
}

#[inline(never)]
fn by_safe_rust(parts: safe_rust::Parts, buffer: &mut [u8]) -> Result<usize, u8> {
    black_box(safe_rust::write_request(parts, buffer))
}

/// Requests written by a side, one after the other.
fn pass<Parts: Copy + 'static, Answer: 'static>(
    write: Write<Parts, Answer>,
    inputs: &Rc<[Parts]>,
    room: usize,
) -> Pass {
    let mut buffer = vec![LENT; room];
    let write = black_box(write);
    order::pass(inputs, CALLS, move |parts| {
        write(*black_box(parts), black_box(&mut buffer));
    })
}

/// Whether both sides give equal answers, which are as the row's name says, and equal bytes in all of the buffer.
fn check(kind: &Kind, library: raw::Parts, safe_rust: safe_rust::Parts) -> Result<(), String> {
    let what = kind.what;
    let mut buffers = [vec![LENT; kind.room], vec![LENT; kind.room]];
    let found = by_library(library, &mut buffers[0]);
    let expected = match by_safe_rust(safe_rust, &mut buffers[1]) {
        Ok(length) => written(length, 0),
        Err(number) => written(0, number),
    };
    if found != expected || expected != kind.answer {
        return Err(format!(
            "{what}: {library:X?}: library {found:?}, safe Rust {expected:?}"
        ));
    }
    if buffers[0] != buffers[1] {
        return Err(format!(
            "{what}: {library:X?}: the library's buffer differs from safe Rust's"
        ));
    }
    Ok(())
}
