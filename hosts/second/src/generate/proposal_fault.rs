//! Structures with a proposal that is not accepted, each for one cause.

use thawribbon::raw::Structure;

use super::cursor::Cursor;
use super::list_fault::FAR;
use super::proposal::{acceptable, lowest};
use super::random::Random;
use super::structures::{MOST_STRUCTURES, fitting, some_count, structures_of};

/// Structures and offsets for them.
pub type Proposed = (Vec<Structure>, Vec<u16>);

/// Makes them. The neighbours that overlap, the offset that is no multiple of 4, and the neighbours that fall have their
/// turn: the first offset can be neither of the latter.
pub struct ProposalFaultMaker {
    overlaps: Cursor,
    unaligned: Cursor,
    falls: Cursor,
}

impl ProposalFaultMaker {
    pub const fn new() -> Self {
        Self {
            overlaps: Cursor::new(MOST_STRUCTURES - 1),
            unaligned: Cursor::new(MOST_STRUCTURES - 2),
            falls: Cursor::new(MOST_STRUCTURES - 2),
        }
    }

    /// Structures and offsets with one fault.
    pub fn draw(&mut self, in_turn: bool, random: &mut Random) -> Proposed {
        match random.weighted(&[6, 6, 6, 6, 20, 20, 20, 10, 5, 2]) {
            0 => changed(1, random, too_few),
            1 => changed(1, random, too_many),
            2 => changed(1, random, |offsets, random| first_low(offsets, random)),
            3 => first_high(random),
            4 => self.unaligned(in_turn, random),
            5 => self.falling(in_turn, random),
            6 => self.overlapping(in_turn, random),
            7 => ending_past(random),
            8 => changed(2, random, |offsets, random| equal(offsets, random)),
            _ => changed(1, random, |offsets, random| any_offset(offsets, random)),
        }
    }

    /// The structure at a place gets longer than the way to the next one.
    fn overlapping(&mut self, in_turn: bool, random: &mut Random) -> Proposed {
        let is_far = random.percent(15);
        let place = turn_or_end(&mut self.overlaps, MOST_STRUCTURES - 1, in_turn && !is_far, random);
        let mut structures = fitting(some_more(place + 2, MOST_STRUCTURES, random), random);
        let offsets = acceptable(&structures, random);
        let way = offsets[place + 1] - offsets[place];
        let (least, most) = if is_far { (5, 48) } else { (1, 4) };
        let length = way + random.within(least, most) as u16;
        structures[place].length = length.min(3840);
        (structures, offsets)
    }

    /// A structure stands up to three bytes higher, with a word free behind it.
    fn unaligned(&mut self, in_turn: bool, random: &mut Random) -> Proposed {
        let place = 1 + turn_or_end(&mut self.unaligned, MOST_STRUCTURES - 2, in_turn, random);
        let (structures, mut offsets) = with_a_free_word(some_more(place + 1, MOST_STRUCTURES - 1, random), random);
        for offset in &mut offsets[place + 1..] {
            *offset += 4;
        }
        offsets[place] += random.within(1, 3) as u16;
        (structures, offsets)
    }

    /// Two neighbours stand the other way round in the space.
    fn falling(&mut self, in_turn: bool, random: &mut Random) -> Proposed {
        let place = 1 + turn_or_end(&mut self.falls, MOST_STRUCTURES - 2, in_turn, random);
        let structures = fitting(some_more(place + 2, MOST_STRUCTURES, random), random);
        let mut offsets = acceptable(&structures, random);
        let low = offsets[place];
        offsets[place + 1] = low;
        offsets[place] = low + structures[place + 1].length.next_multiple_of(4);
        (structures, offsets)
    }
}

/// A place in turn, or one of the lowest or the highest.
fn turn_or_end(places: &mut Cursor, bound: usize, in_turn: bool, random: &mut Random) -> usize {
    match random.weighted(&[80, 14, 6]) {
        0 => places.draw(in_turn, random),
        1 => random.below(6),
        _ => bound - random.within(1, 3),
    }
}

/// So many structures or some more, and not too many of those.
fn some_more(least: usize, most: usize, random: &mut Random) -> usize {
    let any = random.within(least, most);
    random.pick(&[least, least + 1, least + 5, any, most]).min(most)
}

/// A list with an accepted proposal, to which something is done.
fn changed(least: usize, random: &mut Random, change: fn(&mut Vec<u16>, &mut Random)) -> Proposed {
    let structures = fitting(some_count(least, MOST_STRUCTURES, random), random);
    let mut offsets = acceptable(&structures, random);
    change(&mut offsets, random);
    (structures, offsets)
}

/// The lowest proposal for structures that leave a word free at least.
fn with_a_free_word(count: usize, random: &mut Random) -> Proposed {
    let any = random.within(count, MOST_STRUCTURES - 1);
    let words = random.pick(&[count, any, any, MOST_STRUCTURES - 1]);
    let structures = structures_of(count, words, random);
    let offsets = lowest(&structures);
    (structures, offsets)
}

fn too_few(offsets: &mut Vec<u16>, random: &mut Random) {
    let count = offsets.len();
    let any = random.below(count);
    offsets.truncate(random.pick(&[count - 1, count - 1, any, 0]));
}

/// One more that could stand there, some more, or as many more as 16 bits do not tell.
fn too_many(offsets: &mut Vec<u16>, random: &mut Random) {
    let more = match random.weighted(&[70, 27, 3]) {
        0 => 1,
        1 => random.within(2, 20),
        _ => FAR,
    };
    let last = offsets[offsets.len() - 1];
    offsets.extend((1..=more).map(|place| last.wrapping_add((4 * place) as u16)));
}

fn first_low(offsets: &mut [u16], random: &mut Random) {
    let any = 4 * random.below(0x40) as u16;
    offsets[0] = random.pick(&[0x0FC, 0x0FC, 0x000, any]);
}

/// The first stands a word higher, with all others or without them.
fn first_high(random: &mut Random) -> Proposed {
    let (structures, mut offsets) = with_a_free_word(some_count(1, MOST_STRUCTURES - 1, random), random);
    for offset in &mut offsets {
        *offset += 4;
    }
    (structures, offsets)
}

/// The last of two structures or more ends past 1000h: by up to four bytes, or far past it.
fn ending_past(random: &mut Random) -> Proposed {
    let structures = fitting(some_count(2, MOST_STRUCTURES, random), random);
    let mut offsets = acceptable(&structures, random);
    if let (Some(last), Some(structure)) = (offsets.last_mut(), structures.last()) {
        let least = (0x1000 - structure.length) / 4 * 4 + 4;
        let any = 4 * random.within(usize::from(least) / 4, 0x3FFF) as u16;
        let anew = random.pick(&[0xFFFC, (0xFFFF - structure.length) / 4 * 4 + 4]);
        let by_low_12_bits = *last | 0x1000 << random.below(4);
        *last = random.pick(&[least, least, least, least, 0x1000, anew, anew, by_low_12_bits, any]);
    }
    (structures, offsets)
}

/// Two offsets are the same: neighbours, any two, or all.
fn equal(offsets: &mut [u16], random: &mut Random) {
    let count = offsets.len();
    let place = random.below(count - 1);
    match random.below(5) {
        0 | 1 => offsets[place + 1] = offsets[place],
        2 | 3 => offsets[count - 1] = offsets[place],
        _ => offsets.fill(0x100),
    }
}

fn any_offset(offsets: &mut [u16], random: &mut Random) {
    let any = random.bits() as u16;
    let place = random.below(offsets.len());
    offsets[place] = random.pick(&[any, any & 0xFFFC, any & 0xFFC, 0xFFFF, 0]);
}

/// Adds another fault to offsets that have one.
pub fn spoil_more(offsets: &mut Vec<u16>, random: &mut Random) {
    if offsets.is_empty() {
        return;
    }
    let (place, last) = (random.below(offsets.len()), offsets.len() - 1);
    match random.below(9) {
        0 => offsets.truncate(last),
        1 => offsets.push(offsets[last].wrapping_add(64)),
        2 => offsets[0] = random.pick(&[0x0FC, 0x104, 0x101]),
        3 => offsets[place] |= random.within(1, 3) as u16,
        4 => offsets[place] = offsets[last],
        5 => offsets.swap(place, last),
        6 => offsets[last] = random.pick(&[0x0FFC, 0x1000, 0xFFFC]),
        7 if last > 1 => {
            offsets.truncate(last);
            offsets[last - 1] = 0x1000;
        }
        _ => offsets[place] = offsets[place].wrapping_sub(4),
    }
}
