//! Calls of `check_layout`, and what `write_layout` is given beside the space: structures and a proposal.

use thawribbon::raw::Structure;

use super::cursor::Cursor;
use super::list_fault::ListFaultMaker;
use super::plan::second_fault;
use super::proposal::{acceptable, lowest};
use super::proposal_fault::{ProposalFaultMaker, Proposed, spoil_more};
use super::random::Random;
use super::structures::{MOST_STRUCTURES, any_structure, crowded, fitting, some_count, sound_structure};

/// Structures, and the offsets that are proposed for them.
pub struct LayoutCase {
    pub structures: Vec<Structure>,
    pub offsets: Vec<u16>,
}

/// Makes calls.
pub struct LayoutMaker {
    counts: Cursor,
    lists: ListFaultMaker,
    proposals: ProposalFaultMaker,
}

impl LayoutMaker {
    pub const fn new() -> Self {
        Self {
            counts: Cursor::new(MOST_STRUCTURES),
            lists: ListFaultMaker::new(),
            proposals: ProposalFaultMaker::new(),
        }
    }

    /// A call with no fault, one or two. Where it is told so, what has its turn has it.
    pub fn case(&mut self, in_turn: bool, random: &mut Random) -> LayoutCase {
        let (structures, offsets) = match random.weighted(&[26, 47, 6, 3, 18]) {
            0 => self.accepted(in_turn, random),
            1 => self.proposals.draw(in_turn, random),
            2 => {
                let (structures, mut offsets) = self.proposals.draw(false, random);
                spoil_more(&mut offsets, random);
                (structures, offsets)
            }
            3 => {
                let structures = crowded(some_count(2, MOST_STRUCTURES, random), random);
                let offsets = lowest(&structures);
                (structures, offsets)
            }
            _ => self.bad_list(in_turn, random),
        };
        LayoutCase { structures, offsets }
    }

    /// Structures with a proposal that is accepted.
    pub fn accepted(&mut self, in_turn: bool, random: &mut Random) -> Proposed {
        let any = some_count(1, MOST_STRUCTURES, random);
        let count = match random.percent(50) {
            true => 1 + self.counts.draw(in_turn, random),
            false => any,
        };
        let structures = fitting(count, random);
        let offsets = acceptable(&structures, random);
        (structures, offsets)
    }

    /// A list with a fault, or with two. The proposal was accepted before the fault came, or was not.
    fn bad_list(&mut self, in_turn: bool, random: &mut Random) -> Proposed {
        let has_two = random.percent(15);
        let (mut structures, fault) = self.lists.draw(in_turn && !has_two, random);
        let mut offsets = acceptable(&structures, random);
        if has_two {
            let place = fault.other_place(structures.len(), random);
            second_fault(&mut structures[place], random);
        }
        fault.put(&mut structures, random);
        match random.weighted(&[60, 20, 20]) {
            0 => {}
            1 => spoil_more(&mut offsets, random),
            _ if structures.len() < 2000 => offsets = lowest(&structures),
            _ => offsets.clear(),
        }
        (structures, offsets)
    }

    /// A call in which all is random.
    pub fn noise(random: &mut Random) -> LayoutCase {
        let count = random.below(6);
        let are_sound = random.percent(50);
        let structures = (0..count).map(|_| match are_sound {
            true => sound_structure(random.within(1, 960), random),
            false => any_structure(random),
        });
        let structures = structures.collect();
        let offsets = (0..random.below(8)).map(|_| random.bits() as u16).collect();
        LayoutCase { structures, offsets }
    }
}
