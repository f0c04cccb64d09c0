//! Calls of `plan_layout` as a whole: structures and a room, with faults or without.

use thawribbon::raw::Structure;

use super::cursor::Cursor;
use super::list_fault::{FAR, ListFaultMaker, NEAR_STRUCTURES};
use super::random::Random;
use super::structures::{
    MOST_STRUCTURES, any_structure, crowded, fitting, on_edge, some_count, sound_structure, structures_of,
};

/// The longest room that is lent often.
pub const NEAR_ROOM: usize = NEAR_STRUCTURES + 40;

/// A call of `plan_layout`.
pub struct PlanCase {
    pub structures: Vec<Structure>,
    pub room: usize,
}

/// The lengths of a first structure that have their turn, from 4 on.
pub const STEPS: usize = 128;

/// Makes calls.
pub struct PlanMaker {
    counts: Cursor,
    crowded_counts: Cursor,
    words: Cursor,
    steps: Cursor,
    faults: ListFaultMaker,
}

impl PlanMaker {
    pub const fn new() -> Self {
        Self {
            counts: Cursor::new(MOST_STRUCTURES),
            crowded_counts: Cursor::new(MOST_STRUCTURES - 1),
            words: Cursor::new(MOST_STRUCTURES - 1),
            steps: Cursor::new(STEPS),
            faults: ListFaultMaker::new(),
        }
    }

    /// A call with no fault, one or two.
    pub fn case(&mut self, random: &mut Random) -> PlanCase {
        let (has_bad_list, has_small_room) = match random.weighted(&[62, 25, 9, 4]) {
            0 => (false, false),
            1 => (true, false),
            2 => (false, true),
            _ => (true, true),
        };
        let structures = if has_bad_list {
            self.bad_list(!has_small_room, random)
        } else {
            self.list(!has_small_room, random)
        };
        let room = if has_small_room {
            small_room(structures.len(), random)
        } else {
            enough_room(structures.len(), random)
        };
        PlanCase { structures, room }
    }

    /// Sound structures that have a layout or not.
    fn list(&mut self, in_turn: bool, random: &mut Random) -> Vec<Structure> {
        let count = some_count(1, MOST_STRUCTURES, random);
        match random.weighted(&[24, 22, 14, 15, 14, 5, 6]) {
            0 => fitting(1 + self.counts.draw(in_turn, random), random),
            1 => fitting(count, random),
            2 => crowded(2 + self.crowded_counts.draw(in_turn, random), random),
            3 => crowded(count.max(2), random),
            4 => ending_at(1 + self.words.draw(in_turn, random), random),
            5 => beginning_with(4 + self.steps.draw(in_turn, random), random),
            _ => on_edge(random),
        }
    }

    /// A list with a fault, or with two. Now and then it is one that would have no layout either.
    fn bad_list(&mut self, in_turn: bool, random: &mut Random) -> Vec<Structure> {
        let is_crowded = random.percent(20);
        let has_two = random.percent(20);
        let (mut structures, fault) = self.faults.draw(in_turn && !has_two, random);
        if is_crowded && structures.len() > 1 {
            structures = crowded(structures.len(), random);
        }
        if has_two {
            let place = fault.other_place(structures.len(), random);
            second_fault(&mut structures[place], random);
        }
        fault.put(&mut structures, random);
        structures
    }

    /// A call in which all is random.
    pub fn noise(random: &mut Random) -> PlanCase {
        let count = random.below(8);
        let structures: Vec<Structure> = match random.percent(50) {
            true => (0..count).map(|_| any_structure(random)).collect(),
            false => (0..count)
                .map(|_| structures_of(1, random.within(1, 960), random)[0])
                .collect(),
        };
        PlanCase {
            structures,
            room: random.below(12),
        }
    }
}

/// A few structures, the last of which is planned behind so many words.
fn ending_at(word: usize, random: &mut Random) -> Vec<Structure> {
    let mut structures = structures_of(random.within(1, word.min(3)), word, random);
    structures.push(sound_structure(random.within(1, MOST_STRUCTURES - word), random));
    structures
}

/// A few structures, the first of such a length.
fn beginning_with(length: usize, random: &mut Random) -> Vec<Structure> {
    let mut structures = structures_of(random.within(2, 5), 200, random);
    structures[0].length = length as u16;
    structures
}

/// One of a structure's three numbers is any.
pub fn second_fault(structure: &mut Structure, random: &mut Random) {
    let any = any_structure(random);
    match random.below(3) {
        0 => structure.id = 0,
        1 => structure.version = any.version | 16,
        _ => structure.length = random.pick(&[any.length % 4, any.length | 4096]),
    }
}

/// Room for so many offsets: just so, for one more, for some more, and for so many that 16 bits do not tell it.
fn enough_room(count: usize, random: &mut Random) -> usize {
    let some_more = count + random.within(2, 40);
    match random.weighted(&[45, 25, 28, 1, 1]) {
        _ if count > NEAR_STRUCTURES => count,
        0 => count,
        1 => count + 1,
        2 => some_more,
        3 => FAR,
        _ => FAR + random.below(count + 1),
    }
}

/// Room for fewer offsets.
fn small_room(count: usize, random: &mut Random) -> usize {
    if count == 0 {
        return 0;
    }
    match random.weighted(&[50, 20, 30]) {
        0 => count - 1,
        1 => 0,
        _ => random.below(count),
    }
}
