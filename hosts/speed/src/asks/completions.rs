//! The rows of the reader: completions with data, without and with UR, and what is refused.

use super::safe_rust::{self, Completion, Said};
use super::{CALLS, INPUTS};
use crate::measure::Pass;
use crate::order;
use crate::random::Random;
use crate::raw;
use crate::row::{Peer, Row};
use std::hint::black_box;
use std::rc::Rc;

/// Completions of a kind, and the number and what is said that they must get.
struct Kind {
    what: &'static str,
    draw: fn(&mut Random) -> Vec<u8>,
    number: u8,
    said: u8,
}

const KINDS: [Kind; 6] = [
    heard("ask, a completion with data is read", with_data, 1),
    heard(
        "ask, a completion without data is read",
        |random| without_data(random, 0x00),
        2,
    ),
    heard("ask, UR is read", |random| without_data(random, 0x20), 3),
    refused(
        "ask, refused 3, a completion under 12 bytes",
        |random| {
            let length = random.below(12);
            cut(with_data(random), length)
        },
        3,
    ),
    refused("ask, refused 5, another length", |random| cut(with_data(random), 15), 5),
    refused(
        "ask, refused 6, another fixed byte",
        |random| {
            let mut completion = with_data(random);
            completion[random.pick(&[1, 2, 3, 6, 7, 11])] ^= 1 << random.below(8);
            completion
        },
        6,
    ),
];

const fn heard(what: &'static str, draw: fn(&mut Random) -> Vec<u8>, said: u8) -> Kind {
    Kind {
        what,
        draw,
        number: 0,
        said,
    }
}

const fn refused(what: &'static str, draw: fn(&mut Random) -> Vec<u8>, number: u8) -> Kind {
    Kind {
        what,
        draw,
        number,
        said: 0,
    }
}

fn with_data(random: &mut Random) -> Vec<u8> {
    let mut completion = without_data(random, 0x00);
    (completion[0], completion[3]) = (0x4A, 0x01);
    completion.extend(random.bytes(4));
    completion
}

fn without_data(random: &mut Random, status: u8) -> Vec<u8> {
    let drawn = random.bytes(5);
    vec![
        0x0A, 0, 0, 0, drawn[0], drawn[1], status, 0x04, drawn[2], drawn[3], drawn[4], 0,
    ]
}

fn cut(mut completion: Vec<u8>, length: usize) -> Vec<u8> {
    completion.truncate(length);
    completion
}

/// Reads a completion: a function that is not inlined and makes one call to its side. What it answers goes through
/// black_box there, so that it is no mere jump to its side.
type Read<Answer> = fn(&[u8]) -> Answer;

pub fn rows() -> Result<Vec<Row>, String> {
    KINDS.iter().zip(5100..).map(|(kind, seed)| row(kind, seed)).collect()
}

fn row(kind: &Kind, seed: u64) -> Result<Row, String> {
    let mut random = Random::seeded(seed);
    let completions: Rc<[Box<[u8]>]> = (0..INPUTS).map(|_| (kind.draw)(&mut random).into()).collect();
    for completion in completions.iter() {
        check(kind, completion)?;
    }
    let peers = vec![(Peer::SafeRust, pass(by_safe_rust, &completions))];
    Ok(Row::new(kind.what, CALLS, pass(by_library, &completions), peers))
}

#[inline(never)]
fn by_library(completion: &[u8]) -> raw::Heard {
    black_box(raw::read_completion(completion))
}

#[inline(never)]
fn by_safe_rust(completion: &[u8]) -> Result<Completion, u8> {
    black_box(safe_rust::read_completion(completion))
}

/// Completions read by a side, one after the other.
fn pass<Answer: 'static>(read: Read<Answer>, completions: &Rc<[Box<[u8]>]>) -> Pass {
    let read = black_box(read);
    order::pass(completions, CALLS, move |completion| {
        read(black_box(completion));
    })
}

/// Whether both sides give equal answers, which are as the row's name says.
fn check(kind: &Kind, completion: &[u8]) -> Result<(), String> {
    let found = by_library(completion);
    let expected = in_library_form(by_safe_rust(completion));
    if found != expected || (expected.number, expected.said) != (kind.number, kind.said) {
        let what = kind.what;
        return Err(format!(
            "{what}: {completion:02X?}: library {found:X?}, safe Rust {expected:X?}"
        ));
    }
    Ok(())
}

/// Safe Rust's answer in the form that the library gives it.
fn in_library_form(answer: Result<Completion, u8>) -> raw::Heard {
    let completion = match answer {
        Ok(completion) => completion,
        Err(number) => {
            return raw::Heard {
                number,
                ..raw::Heard::default()
            };
        }
    };
    let (said, data) = match completion.said {
        Said::Data(data) => (1, data),
        Said::Done => (2, [0; 4]),
        Said::Unsupported => (3, [0; 4]),
    };
    raw::Heard {
        number: 0,
        said,
        completer: completion.completer,
        requester: completion.requester,
        tag: completion.tag,
        data,
    }
}
