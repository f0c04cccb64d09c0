//! Completions to be read: such as a board could give, such as have one fault or several, and plain noise.

use super::cursor::Cursor;
use super::packet::{LONGEST_PACKET, Packet, noise};
use super::random::Random;
use super::reply::{FIXED_PLACES, UNSUPPORTED, WITH_DATA, WITHOUT_DATA, has_there, reply_length};

/// A cause for one of the numbers 3 to 6.
#[derive(Clone, Copy)]
enum Fault {
    Short,
    FirstByte,
    Length,
    FixedByte,
}

/// The faults, each with how often it is taken: those with many values more often.
const FAULTS: [(Fault, usize); 4] = [
    (Fault::Short, 10),
    (Fault::FirstByte, 15),
    (Fault::Length, 13),
    (Fault::FixedByte, 62),
];

/// Makes completions. A fault with many values takes them in turn where it is the only one.
pub struct CompletionMaker {
    short_lengths: Cursor,
    wrong_lengths: Cursor,
    first_bytes: Cursor,
    /// Every value of every fixed place, for a reply without data and for one with.
    fixed_bytes: [Cursor; 2],
}

impl CompletionMaker {
    pub const fn new() -> Self {
        Self {
            short_lengths: Cursor::new(12),
            wrong_lengths: Cursor::new(LONGEST_PACKET - 12),
            first_bytes: Cursor::new(254),
            fixed_bytes: [const { Cursor::new(256 * FIXED_PLACES.len()) }; 2],
        }
    }

    /// A completion with no fault, one, or up to three.
    pub fn completion(&mut self, random: &mut Random) -> Packet {
        let mut completion = sound(random);
        let count = random.weighted(&[30, 58, 9, 3]);
        for _ in 0..count {
            let place = random.weighted(&FAULTS.map(|(_, weight)| weight));
            self.put(FAULTS[place].0, count == 1, &mut completion, random);
        }
        completion
    }

    fn put(&mut self, fault: Fault, in_turn: bool, completion: &mut Packet, random: &mut Random) {
        let first = completion.bytes[0];
        match fault {
            Fault::Short => completion.length = self.short_lengths.draw(in_turn, random),
            Fault::FirstByte => completion.bytes[0] = self.first_byte(first, in_turn, random),
            Fault::Length if random.percent(25) => completion.length = 28 - reply_length(first),
            Fault::Length => {
                let drawn = 12 + self.wrong_lengths.draw(in_turn, random);
                completion.length = drawn + usize::from(drawn >= reply_length(first));
            }
            Fault::FixedByte => self.spoil_fixed_byte(in_turn, completion, random),
        }
    }

    /// A first byte that is neither of the two: the next in turn, or one that differs from the one given in a bit.
    fn first_byte(&mut self, first: u8, in_turn: bool, random: &mut Random) -> u8 {
        let near = first ^ 1 << random.below(8);
        if random.percent(30) && near != WITH_DATA && near != WITHOUT_DATA {
            return near;
        }
        other_first_byte(self.first_bytes.draw(in_turn, random))
    }

    /// Puts a byte at a fixed place that no reply with that first byte has there: the next in turn, or one that differs
    /// from the right one in a bit.
    fn spoil_fixed_byte(&mut self, in_turn: bool, completion: &mut Packet, random: &mut Random) {
        let bytes = &mut completion.bytes;
        let values = &mut self.fixed_bytes[usize::from(bytes[0] == WITH_DATA)];
        let is_near = random.percent(35);
        let (place, byte) = loop {
            let near = random.pick(&FIXED_PLACES);
            let (place, byte) = if is_near {
                (near, bytes[near] ^ 1 << random.below(8))
            } else {
                fixed_byte(values.draw(in_turn, random))
            };
            if !has_there(bytes[0], place, byte) {
                break (place, byte);
            }
        };
        bytes[place] = byte;
    }

    /// Random bytes of any length, mostly with one of the two first bytes.
    pub fn noise(random: &mut Random) -> Packet {
        let mut completion = noise(random);
        if random.percent(70) {
            completion.bytes[0] = random.pick(&[WITH_DATA, WITHOUT_DATA]);
        }
        completion
    }
}

/// A fixed place and a value for it, such that the places take turns.
const fn fixed_byte(drawn: usize) -> (usize, u8) {
    let places = FIXED_PLACES.len();
    (FIXED_PLACES[drawn % places], (drawn / places) as u8)
}

/// A completion that a board could give, with random bytes wherever it is free.
fn sound(random: &mut Random) -> Packet {
    let mut completion = noise(random);
    let (first, status) = match random.below(4) {
        0 => (WITHOUT_DATA, 0x00),
        1 => (WITHOUT_DATA, UNSUPPORTED),
        _ => (WITH_DATA, 0x00),
    };
    let bytes = &mut completion.bytes;
    [bytes[0], bytes[1], bytes[2], bytes[3]] = [first, 0x00, 0x00, first >> 6];
    [bytes[6], bytes[7], bytes[11]] = [status, 0x04, 0x00];
    completion.length = reply_length(first);
    completion
}

/// One of the 254 bytes that are neither of the two first bytes, by its place among them.
const fn other_first_byte(place: usize) -> u8 {
    let byte = place as u8;
    match byte {
        0..WITHOUT_DATA => byte,
        WITHOUT_DATA..0x49 => byte + 1,
        _ => byte + 2,
    }
}

#[cfg(test)]
mod tests {
    use super::{WITH_DATA, WITHOUT_DATA, other_first_byte};

    #[test]
    fn every_other_first_byte_has_its_place() {
        let made: Vec<u8> = (0..254).map(other_first_byte).collect();
        let others: Vec<u8> = (0..=255)
            .filter(|&byte| byte != WITH_DATA && byte != WITHOUT_DATA)
            .collect();
        assert_eq!(made, others);
    }
}
