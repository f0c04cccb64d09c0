//! Calls of `write_request` as a whole: parts and a buffer, with faults or without.

use thawribbon::raw::Parts;

use super::cursor::Cursor;
use super::parts::{PartsMaker, is_write};
use super::parts_fault::{PartsFault, PartsFaultMaker};
use super::random::Random;

/// The longest buffer that is lent for a request.
pub const LONGEST_BUFFER: usize = 48;

/// A call of `write_request`.
#[derive(Clone, Copy)]
pub struct AskCase {
    pub parts: Parts,
    pub buffer_length: usize,
}

/// A cause for one of the numbers 1 and 2.
#[derive(Clone, Copy)]
enum Fault {
    Parts(PartsFault),
    Room,
}

/// The faults, each with how often it is taken: those with many values more often.
const FAULTS: [(Fault, usize); 8] = [
    (Fault::Parts(PartsFault::Bit7), 5),
    (Fault::Parts(PartsFault::Kind), 18),
    (Fault::Parts(PartsFault::Device), 17),
    (Fault::Parts(PartsFault::Function), 18),
    (Fault::Parts(PartsFault::Over), 8),
    (Fault::Parts(PartsFault::Unaligned), 8),
    (Fault::Parts(PartsFault::Enables), 17),
    (Fault::Room, 18),
];

/// Makes calls.
pub struct AskMaker {
    parts: PartsMaker,
    faults: PartsFaultMaker,
    rooms: [Cursor; 2],
}

impl AskMaker {
    pub fn new() -> Self {
        Self {
            parts: PartsMaker::new(),
            faults: PartsFaultMaker::new(),
            rooms: [Cursor::new(12), Cursor::new(16)],
        }
    }

    /// A call with no fault, one, or up to three.
    pub fn case(&mut self, random: &mut Random) -> AskCase {
        let count = random.weighted(&[52, 34, 11, 3]);
        let mut parts = self.parts.sound(count == 0, random);
        let mut is_short = false;
        for _ in 0..count {
            let place = random.weighted(&FAULTS.map(|(_, weight)| weight));
            match FAULTS[place].0 {
                Fault::Room => is_short = true,
                Fault::Parts(fault) => self.faults.put(fault, count == 1, &mut parts, random),
            }
        }
        let buffer_length = if is_short {
            self.rooms[usize::from(is_write(parts.kind))].draw(count == 1, random)
        } else {
            room_enough(parts.kind, random)
        };
        AskCase { parts, buffer_length }
    }

    /// A call in which all is random.
    pub fn noise(random: &mut Random) -> AskCase {
        AskCase {
            parts: PartsMaker::noise(random),
            buffer_length: random.below(LONGEST_BUFFER + 1),
        }
    }
}

/// The length of a buffer that has room for a request of a kind: just enough, some bytes more, or many.
fn room_enough(kind: u8, random: &mut Random) -> usize {
    let needed = if is_write(kind) { 16 } else { 12 };
    match random.weighted(&[30, 55, 15]) {
        0 => needed,
        1 => random.within(needed, 24),
        _ => random.within(25, LONGEST_BUFFER),
    }
}
