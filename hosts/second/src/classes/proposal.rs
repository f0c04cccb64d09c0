//! Why a proposal is not accepted, clause by clause, and the classes of that for the checker and for the writer.
//!
//! Overlaps are looked for between neighbours in the space, after the structures were sorted by their offsets. The model
//! has a map of its bytes.

use thawribbon::raw::Structure;

use super::group::Group;
use super::layout_names::{PROPOSAL_CAUSES, ProposalCause};
use super::tally::Tally;
use crate::generate::{FAR, MOST_STRUCTURES};

/// The clauses, in their order: too few offsets, too many, the first, multiples of 4, the order, overlaps, ends.
const CLAUSES: usize = 7;
const FEW: usize = 0;
const MANY: usize = 1;
const FIRST: usize = 2;
const UNALIGNED: usize = 3;
const ORDER: usize = 4;
const OVERLAP: usize = 5;

/// A proposal, and where it fails. Structures and offsets go together as far as there are both.
pub struct Proposal<'call> {
    pub structures: &'call [Structure],
    pub offsets: &'call [u16],
    /// The pairs of places that overlap, of those that are neighbours in the space; the lower offset first.
    pub overlaps: Vec<(usize, usize)>,
    fails: [bool; CLAUSES],
}

impl<'call> Proposal<'call> {
    pub fn of(structures: &'call [Structure], offsets: &'call [u16]) -> Self {
        let count = structures.len().min(offsets.len());
        let mut proposal = Self {
            structures,
            offsets,
            overlaps: Vec::new(),
            fails: [false; CLAUSES],
        };
        let mut sorted: Vec<usize> = (0..count).collect();
        sorted.sort_by_key(|&place| offsets[place]);
        let pairs = sorted.windows(2).map(|pair| (pair[0], pair[1]));
        proposal.overlaps = pairs
            .filter(|&(low, high)| proposal.end(low) > usize::from(offsets[high]))
            .collect();
        let with_structures = &offsets[..count];
        proposal.fails = [
            offsets.len() < structures.len(),
            offsets.len() > structures.len(),
            offsets.first().is_some_and(|&first| first != 0x100),
            with_structures.iter().any(|offset| offset % 4 != 0),
            with_structures.windows(2).any(|pair| pair[0] >= pair[1]),
            !proposal.overlaps.is_empty(),
            (0..count).any(|place| proposal.end(place) > 0x1000),
        ];
        proposal
    }

    /// Whether it meets every clause.
    pub fn is_accepted(&self) -> bool {
        self.fails == [false; CLAUSES]
    }

    /// Where the structure at a place ends.
    pub fn end(&self, place: usize) -> usize {
        usize::from(self.offsets[place]) + usize::from(self.structures[place].length)
    }

    /// Counts a proposal that is not accepted: by its only cause, or by two.
    pub fn count_refused(&self, writes: usize, tally: &mut Tally) {
        let failing: Vec<usize> = (0..CLAUSES).filter(|&clause| self.fails[clause]).collect();
        match failing[..] {
            [clause] => self.count_alone(clause, writes, tally),
            [first, second] if (first, second) != (FEW, MANY) => {
                tally.add(Group::ProposalTogether, 20 * writes + pair_place(first, second));
            }
            _ => {}
        }
    }

    /// Counts the clause that fails alone, with its value and its place.
    fn count_alone(&self, clause: usize, writes: usize, tally: &mut Tally) {
        let (cause, further) = match clause {
            FEW => (self.few(), 0),
            MANY => (self.many(), 0),
            FIRST => (self.first(), 0),
            UNALIGNED => match self.unaligned() {
                Some((place, rest)) => {
                    tally.add(Group::UnalignedPlaces, (MOST_STRUCTURES - 2) * writes + place - 1);
                    (ProposalCause::Remainder1, rest - 1)
                }
                None => return,
            },
            ORDER => (self.count_order(writes, tally), 0),
            OVERLAP => match self.overlaps[..] {
                [(low, high)] if low + 1 == high => {
                    tally.add(Group::OverlapPairs, (MOST_STRUCTURES - 1) * writes + low);
                    let bytes = self.end(low) - usize::from(self.offsets[high]);
                    (ProposalCause::OverlapBy1, bytes.min(5) - 1)
                }
                _ => return,
            },
            _ => self.past(),
        };
        tally.add(
            Group::ProposalCauses,
            PROPOSAL_CAUSES.len() * writes + cause as usize + further,
        );
    }

    fn few(&self) -> ProposalCause {
        match self.structures.len() - self.offsets.len() {
            _ if self.offsets.is_empty() => ProposalCause::None,
            1 => ProposalCause::OneTooFew,
            _ => ProposalCause::TooFew,
        }
    }

    fn many(&self) -> ProposalCause {
        match self.offsets.len() - self.structures.len() {
            1 => ProposalCause::OneTooMany,
            FAR => ProposalCause::RightIn16Bits,
            _ => ProposalCause::TooMany,
        }
    }

    fn first(&self) -> ProposalCause {
        match self.offsets[0] {
            0x000 => ProposalCause::FirstAtZero,
            0x0FC => ProposalCause::FirstOneLow,
            first if first < 0x100 => ProposalCause::FirstLow,
            _ => ProposalCause::FirstOneHigh,
        }
    }

    /// The only offset that is no multiple of 4, and its remainder.
    fn unaligned(&self) -> Option<(usize, usize)> {
        let rests = self.offsets.iter().map(|&offset| usize::from(offset % 4)).enumerate();
        let mut unaligned = rests.filter(|&(_, rest)| rest != 0);
        unaligned.next().filter(|_| unaligned.next().is_none())
    }

    /// Counts the only two neighbours that fall, where the others rise past them. One below the first is none of these.
    fn count_order(&self, writes: usize, tally: &mut Tally) -> ProposalCause {
        let falls: Vec<usize> = (1..self.offsets.len())
            .filter(|&place| self.offsets[place - 1] > self.offsets[place])
            .collect();
        let [high] = falls[..] else {
            return ProposalCause::FallingFurther;
        };
        let mut other_way_round = self.offsets.to_vec();
        other_way_round.swap(high - 1, high);
        if high == 1 || !other_way_round.is_sorted() {
            return ProposalCause::FallingFurther;
        }
        tally.add(Group::FallPairs, (MOST_STRUCTURES - 2) * writes + high - 2);
        ProposalCause::Falling
    }

    /// How the last structure ends past 1000h: only the last can where all else is as it should be.
    fn past(&self) -> (ProposalCause, usize) {
        let last = self.offsets.len() - 1;
        let (at, end) = (usize::from(self.offsets[last]), self.end(last));
        let low = at % 0x1000;
        let before = last.checked_sub(1).map_or(0, |before| self.end(before));
        let is_right_in_12_bits = low >= before && low + end - at <= 0x1000;
        match end - 0x1000 {
            _ if end >= FAR => (ProposalCause::Past16Bits, 0),
            _ if at >= 0x1000 && is_right_in_12_bits => (ProposalCause::RightIn12Bits, 0),
            _ if at >= 0x1000 => (ProposalCause::BeginsPast, 0),
            over @ 1..=4 => (ProposalCause::PastBy1, over - 1),
            _ => (ProposalCause::PastByMore, 0),
        }
    }
}

/// The place of two clauses that fail among all pairs, but for the first: there are not too few and too many.
const fn pair_place(first: usize, second: usize) -> usize {
    let before = first * (2 * CLAUSES - first - 1) / 2;
    before + second - first - 2
}

#[cfg(test)]
mod tests {
    use super::{CLAUSES, Proposal, pair_place};
    use thawribbon::raw::Structure;

    #[test]
    fn there_are_20_pairs() {
        let pairs = (0..CLAUSES).flat_map(|first| (first + 1..CLAUSES).map(move |second| (first, second)));
        let places = pairs
            .filter(|&pair| pair != (0, 1))
            .map(|(first, second)| pair_place(first, second));
        assert!(places.eq(0..20));
    }

    #[test]
    fn each_clause_fails_alone() {
        let structure = Structure {
            id: 1,
            version: 0,
            length: 6,
        };
        let fails = |offsets: &[u16]| Proposal::of(&[structure; 3], offsets).fails;
        assert_eq!(fails(&[0x100, 0x108, 0x110]), [false; CLAUSES]);
        for (clause, offsets) in [
            &[0x100, 0x108][..],
            &[0x100, 0x108, 0x110, 0x114],
            &[0x0FC, 0x108, 0x110],
            &[0x100, 0x10A, 0x110],
            &[0x100, 0x110, 0x108],
            &[0x100, 0x104, 0x110],
            &[0x100, 0x108, 0xFFC],
        ]
        .into_iter()
        .enumerate()
        {
            let mut expected = [false; CLAUSES];
            expected[clause] = true;
            assert_eq!(fails(offsets), expected);
        }
    }
}
