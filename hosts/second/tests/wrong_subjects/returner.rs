//! What the wrong ways to return a read's word are made of.

use second::compare::{Reference, ServeCall, Subject};

use crate::clearer::is_at_a;
use crate::harness::{Wrong, expect_caught};
use crate::serving::{again, code, offset, succeeds};

/// Where a read finds its word.
#[derive(Clone, Copy, PartialEq, Eq)]
pub enum Place {
    Ordinary,
    AtA,
    Trusted,
}

pub const PLACES: [Place; 3] = [Place::Ordinary, Place::AtA, Place::Trusted];

/// A successful read, and the bytes that it could return.
pub struct Read {
    pub place: Place,
    pub enables: u8,
    /// The first byte and the third of the packet: bit 7, digest and poison.
    pub first: u8,
    pub third: u8,
    /// The four bytes that are due, and those of the next word.
    pub due: [u8; 4],
    pub next: [u8; 4],
    /// The marks of those that are due.
    pub marks: [u8; 4],
    /// The bytes at the offset that is asked for, of the space in which those that are due do not stand. At A they are
    /// stored there.
    pub other: [u8; 4],
    /// What the reply has at their place when it is lent.
    pub lent: [u8; 4],
}

/// Four bytes from an address on, each by itself. Behind the last one is the first.
fn four_bytes(space: &[u8], first: usize) -> [u8; 4] {
    [0, 1, 2, 3].map(|byte| space[(first + byte) % space.len()])
}

impl Read {
    fn of(call: &ServeCall<'_>) -> Self {
        let asked = offset(call.packet);
        let (place, at) = match (is_at_a(call), code(call)) {
            (true, _) => (Place::AtA, call.description.b as usize),
            (false, 0x04) => (Place::Ordinary, asked),
            _ => (Place::Trusted, asked),
        };
        let (ordinary, trusted) = (&*call.ordinary, &*call.trusted);
        let (space, marks, other) = match place {
            Place::Ordinary => (ordinary, call.ordinary_marks, trusted),
            _ => (trusted, call.trusted_marks, ordinary),
        };
        Self {
            place,
            enables: call.packet[7],
            first: call.packet[0],
            third: call.packet[2],
            due: four_bytes(space, at),
            next: four_bytes(space, at + 4),
            marks: four_bytes(marks, at),
            other: four_bytes(other, asked),
            lent: four_bytes(call.reply, 12),
        }
    }

    pub const fn is_enabled(&self, byte: usize) -> bool {
        self.enables >> byte & 1 == 1
    }

    /// The first of the enabled bytes, or the first of all where none is.
    pub fn first_enabled(&self) -> usize {
        (0..4).find(|&byte| self.is_enabled(byte)).unwrap_or(0)
    }

    /// The bytes that are due where a condition holds of them, and others where it does not.
    pub fn where_due(&self, is_due: impl Fn(usize) -> bool, others: [u8; 4]) -> [u8; 4] {
        [0, 1, 2, 3].map(|byte| if is_due(byte) { self.due[byte] } else { others[byte] })
    }

    /// The enabled bytes as they are due, and others where a byte is not enabled.
    pub fn with_others(&self, others: [u8; 4]) -> [u8; 4] {
        self.where_due(|byte| self.is_enabled(byte), others)
    }
}

/// Serves where a successful read returns other bytes than the model's.
pub fn returns(mut other: impl FnMut(&Read) -> [u8; 4] + 'static) -> Wrong {
    Wrong::serve(move |mut call| {
        if !succeeds(&mut call) || code(&call) & 0x40 != 0 {
            return Reference.serve(call);
        }
        let read = Read::of(&call);
        let served = Reference.serve(again(&mut call));
        call.reply[12..16].copy_from_slice(&other(&read));
        served
    })
}

/// Fails unless a server that returns other bytes is caught.
pub fn expect_caught_returning(other: impl FnMut(&Read) -> [u8; 4] + 'static) {
    expect_caught(returns(other), "serve");
}

/// Fails unless a server is caught that has document 01's 00h rule left in some reads.
pub fn expect_caught_with_00h(is_left: impl Fn(&Read) -> bool + 'static) {
    expect_caught_returning(move |read| {
        if is_left(read) {
            read.with_others([0x00; 4])
        } else {
            read.due
        }
    });
}
