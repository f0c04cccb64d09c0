//! What makes a list of structures bad: how many they are, or what one of them has.

use thawribbon::raw::Structure;

use super::cursor::Cursor;
use super::random::Random;
use super::structures::{MOST_STRUCTURES, fitting, some_count, sound_structure};

/// The longest list that is lent often, and how much further the longest goes.
pub const NEAR_STRUCTURES: usize = 2000;
pub const FAR: usize = 1 << 16;

/// A cause for the number 1.
#[derive(Clone, Copy)]
pub enum ListFault {
    NoStructure,
    TooMany,
    /// What the structure at a place has.
    At(usize, StructureFault),
}

#[derive(Clone, Copy)]
pub enum StructureFault {
    Id,
    /// A bit that a version cannot have, or any version over 15.
    Version(usize),
    Under,
    Over,
}

/// The bits that a version cannot have: those from bit 4 on.
const VERSION_BITS: usize = 12;

/// Draws faults, with lists that have a place for them.
pub struct ListFaultMaker {
    places: Cursor,
    version_bits: Cursor,
}

impl ListFaultMaker {
    pub const fn new() -> Self {
        Self {
            places: Cursor::new(MOST_STRUCTURES),
            version_bits: Cursor::new(VERSION_BITS),
        }
    }

    /// A sound list that has a layout, and the fault that is to be put into it.
    pub fn draw(&mut self, in_turn: bool, random: &mut Random) -> (Vec<Structure>, ListFault) {
        let count = some_count(1, MOST_STRUCTURES, random);
        let (count, fault) = match random.weighted(&[66, 16, 6, 5, 20]) {
            0 => {
                let place = self.places.draw(in_turn, random);
                (random.within(place + 1, MOST_STRUCTURES), self.any_fault(place, random))
            }
            1 => (count, self.any_fault(random.pick(&[0, count / 2, count - 1]), random)),
            2 => (
                MOST_STRUCTURES,
                self.any_fault(MOST_STRUCTURES - random.within(1, 3), random),
            ),
            3 => (count, ListFault::NoStructure),
            _ => (count, ListFault::TooMany),
        };
        (fitting(count, random), fault)
    }

    /// Any fault of a structure, at a place. The bits of a version have their turn.
    fn any_fault(&mut self, place: usize, random: &mut Random) -> ListFault {
        let fault = match random.below(4) {
            0 => StructureFault::Id,
            1 => StructureFault::Version(4 + self.version_bits.sweep()),
            2 => StructureFault::Under,
            _ => StructureFault::Over,
        };
        ListFault::At(place, fault)
    }
}

impl ListFault {
    /// A place of a list for another fault: often that of this one.
    pub fn other_place(self, count: usize, random: &mut Random) -> usize {
        match self {
            Self::At(place, _) if random.percent(40) => place,
            _ => random.below(count),
        }
    }

    /// Puts the fault into a list. It has the place of the fault.
    pub fn put(self, structures: &mut Vec<Structure>, random: &mut Random) {
        match self {
            Self::NoStructure => structures.clear(),
            Self::TooMany => {
                let count = too_many(structures.len(), random);
                structures.resize(count, sound_structure(1, random));
            }
            Self::At(place, fault) => fault.put(&mut structures[place], random),
        }
    }
}

/// More structures than a list may have: by one, by some, or such a number as would be good in 10 or in 16 bits.
fn too_many(count: usize, random: &mut Random) -> usize {
    match random.weighted(&[50, 20, 22, 7]) {
        0 => MOST_STRUCTURES + 1,
        1 => random.within(MOST_STRUCTURES + 2, MOST_STRUCTURES + 64),
        2 => (1 << 10) + count,
        _ => FAR + count,
    }
}

impl StructureFault {
    /// Puts the fault into a structure.
    pub fn put(self, structure: &mut Structure, random: &mut Random) {
        match self {
            Self::Id => structure.id = 0,
            Self::Version(bit) => {
                let one = structure.version | 1 << bit;
                let any = random.within(16, 0xFFFF) as u16;
                structure.version = random.pick(&[16, one, one, one, one, one, any, 0xFFFF]);
            }
            Self::Under => structure.length = random.below(4) as u16,
            Self::Over => {
                let any = random.within(3841, 0xFFFF) as u16;
                let low = structure.length | 1 << random.within(12, 15);
                structure.length = random.pick(&[3841, 3841, 3842, 3843, 3844, 4096, low, low, any, 0xFFFF]);
            }
        }
    }
}
