//! Spaces with a list of a given length, in memory order or in random order, legal or broken.

use crate::random::Random;

/// Which list is walked.
#[derive(Clone, Copy, Debug, PartialEq, Eq)]
pub enum List {
    Compatible,
    Extended,
    Trusted,
}

/// How a chain goes through memory.
#[derive(Clone, Copy, Debug, PartialEq, Eq)]
pub enum Order {
    /// Each header lies above the one before it.
    Memory,
    /// The headers lie anywhere.
    Random,
}

impl List {
    /// The lowest offset of a header, and the end of the part that headers lie in.
    const fn bounds(self) -> (u16, u16) {
        match self {
            Self::Compatible => (0x040, 0x100),
            Self::Extended => (0x100, 0x1000),
            Self::Trusted => (0x008, 0x1000),
        }
    }

    pub const fn maximum(self) -> usize {
        let (floor, end) = self.bounds();
        ((end - floor) / 4) as usize
    }
}

/// A space with a legal chain of so many headers, and random bytes elsewhere.
pub fn legal(list: List, count: usize, order: Order, random: &mut Random) -> Vec<u8> {
    let offsets = offsets(list, count, order, random);
    space(list, &offsets, 0, random)
}

/// A space whose list goes through a tail of so many headers and then round a loop of so many.
pub fn looping(list: List, tail: usize, round: usize, order: Order, random: &mut Random) -> Vec<u8> {
    let offsets = offsets(list, tail + round, order, random);
    space(list, &offsets, offsets[tail], random)
}

/// A space whose list goes through so many headers and then below its floor.
pub fn falling(list: List, count: usize, order: Order, random: &mut Random) -> Vec<u8> {
    let (floor, _) = list.bounds();
    let offsets = offsets(list, count, order, random);
    space(list, &offsets, floor - 4, random)
}

/// The offsets of a chain. The extended list starts with its floor.
fn offsets(list: List, count: usize, order: Order, random: &mut Random) -> Vec<u16> {
    let (floor, end) = list.bounds();
    let mut offsets: Vec<u16> = (floor..end).step_by(4).collect();
    let fixed = usize::from(list == List::Extended);
    random.shuffle(&mut offsets[fixed..]);
    offsets.truncate(count);
    if order == Order::Memory {
        offsets.sort_unstable();
    }
    offsets
}

/// A space with the headers at these offsets, the last of which points to a given one. What the rules leave open is
/// random, the bottom two bits of every pointer included.
fn space(list: List, offsets: &[u16], last: u16, random: &mut Random) -> Vec<u8> {
    let mut space = random.bytes(4096);
    set_start(list, &mut space, offsets[0]);
    let nexts = offsets[1..].iter().copied().chain([last]);
    for (&offset, next) in offsets.iter().zip(nexts) {
        let pointer = next | random.below(4) as u16;
        let at = usize::from(offset);
        match list {
            List::Compatible => space[at + 1] = pointer as u8,
            _ => {
                space[at] |= 1;
                space[at + 2..at + 4].copy_from_slice(&(pointer << 4 | random.below(16) as u16).to_le_bytes());
            }
        }
    }
    space
}

/// Makes the list start with an offset. The extended list has no pointer to its start.
fn set_start(list: List, space: &mut [u8], start: u16) {
    match list {
        List::Compatible => {
            space[0x06] |= 0x10;
            space[0x34] = start as u8;
        }
        List::Extended => (),
        List::Trusted => {
            let [low, high] = start.to_le_bytes();
            space[0x004] = low;
            space[0x005] = space[0x005] & 0xF0 | high;
        }
    }
}
