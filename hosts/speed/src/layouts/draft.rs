//! Structures that are drawn, and offsets for them that are accepted.

use crate::random::Random;
use crate::raw;

/// Where an extended list begins, and the bytes from there to the end of the space.
const START: usize = 0x100;
const BYTES: usize = 3840;

/// Structures, and an offset for each.
pub struct Draft {
    pub structures: Vec<raw::Structure>,
    pub offsets: Vec<u16>,
}

impl Draft {
    /// So many structures, of which each has a part of the space of its own, all parts being of equal length: the first
    /// stands where its part begins, each other somewhere in its part. Of 960 each part is a header.
    pub fn draw(random: &mut Random, count: usize) -> Self {
        let part = BYTES / count;
        let structures: Vec<raw::Structure> = (0..count).map(|_| structure(random, part)).collect();
        let place = |(structure, begin): (&raw::Structure, usize)| {
            let spare = (part - usize::from(structure.length)) / 4;
            let skipped = if begin == START { 0 } else { random.below(spare + 1) };
            (begin + 4 * skipped) as u16
        };
        let offsets = structures.iter().zip((START..).step_by(part)).map(place).collect();
        Self { structures, offsets }
    }
}

/// A structure of at most so many bytes.
fn structure(random: &mut Random, most: usize) -> raw::Structure {
    raw::Structure {
        id: 1 + random.below(0xFFFF) as u16,
        version: random.below(16) as u16,
        length: (4 + random.below(most - 3)) as u16,
    }
}
