//! What the wrong ways to write a request and to read a completion are made of.

use second::compare::{Reference, Subject};
use thawribbon::raw::{Heard, Parts, Written};

use crate::harness::{Wrong, expect_caught};

pub const KINDS: [u8; 6] = [0x04, 0x44, 0x05, 0x45, 0x1B, 0x5B];

pub const fn is_write(parts: &Parts) -> bool {
    parts.kind & 0x40 != 0
}

/// A request that is refused with a number.
pub const fn refused(number: u8) -> Written {
    Written { length: 0, number }
}

/// The model's answer and what it leaves in the buffer, while no byte that is lent changes.
pub fn rehearsed(parts: Parts, buffer: &[u8]) -> (Written, Vec<u8>) {
    let mut copy = buffer.to_vec();
    (Reference.write_request(parts, &mut copy), copy)
}

/// Writes where the answer is the model's unless something else is put in its place.
pub fn or_else(other: impl Fn(Parts, &mut [u8], Written) -> Option<Written> + 'static) -> Wrong {
    Wrong::write(move |parts, buffer| {
        let (written, _) = rehearsed(parts, buffer);
        match other(parts, buffer, written) {
            Some(answer) => answer,
            None => Reference.write_request(parts, buffer),
        }
    })
}

/// Writes where the parts are changed first.
pub fn with_parts(change: impl Fn(Parts) -> Parts + 'static) -> Wrong {
    Wrong::write(move |parts, buffer| Reference.write_request(change(parts), buffer))
}

/// Writes where what is written, given with its parts, is changed in the buffer.
pub fn with_written(change: impl Fn(Parts, &mut [u8]) + 'static) -> Wrong {
    Wrong::write(move |parts, buffer| {
        let written = Reference.write_request(parts, buffer);
        if written.number == 0 {
            change(parts, &mut buffer[..written.length]);
        }
        written
    })
}

/// Fails unless a writer is caught.
pub fn expect_writer_caught(subject: Wrong) {
    expect_caught(subject, "write_request");
}

/// A completion that is refused with a number.
pub const fn unheard(number: u8) -> Heard {
    Heard {
        number,
        said: 0,
        completer: [0; 2],
        requester: [0; 2],
        tag: 0,
        data: [0; 4],
    }
}

/// Reads where the answer is the model's unless something else is put in its place.
pub fn heard_or_else(other: impl Fn(&[u8], Heard) -> Option<Heard> + 'static) -> Wrong {
    Wrong::read(move |completion| {
        let heard = Reference.read_completion(completion);
        other(completion, heard).unwrap_or(heard)
    })
}

/// Reads where what is told of a completion that is not refused is changed.
pub fn with_heard(change: impl Fn(Heard) -> Heard + 'static) -> Wrong {
    heard_or_else(move |_, heard| (heard.number == 0).then(|| change(heard)))
}

/// Reads where the bytes of a completion are changed first.
pub fn with_completion(change: impl Fn(&mut Vec<u8>) + 'static) -> Wrong {
    Wrong::read(move |completion| {
        let mut other = completion.to_vec();
        change(&mut other);
        Reference.read_completion(&other)
    })
}

/// Fails unless a reader is caught.
pub fn expect_reader_caught(subject: Wrong) {
    expect_caught(subject, "read_completion");
}
