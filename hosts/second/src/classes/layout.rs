//! The classes of calls of `check_layout`, and those that `write_layout` shares, from the inputs and the model's answer.

use thawribbon::raw::Structure;

use super::group::Group;
use super::layout_names::{PROPOSAL_FORMS, ProposalForm};
use super::list_causes::{Entry, ListCauses};
use super::plan::{needed, packed};
use super::proposal::Proposal;
use super::tally::Tally;
use crate::generate::MOST_STRUCTURES;

/// A proposal that was checked or written, and what the model made of it.
pub struct LayoutView<'call> {
    pub structures: &'call [Structure],
    pub offsets: &'call [u16],
    pub number: u8,
}

/// Counts a call of `check_layout` in all its classes.
pub fn count_check(view: &LayoutView<'_>, tally: &mut Tally) {
    count_by(view, Entry::Check, true, tally);
}

/// Counts a call of either entry. Where the clauses call for another number than the model gave, the run stops.
pub fn count_by(view: &LayoutView<'_>, entry: Entry, is_whole: bool, tally: &mut Tally) {
    let causes = ListCauses::of(view.structures);
    let proposal = Proposal::of(view.structures, view.offsets);
    let (is_bad, is_accepted) = (causes.is_bad(), proposal.is_accepted());
    let due = match (is_bad || !is_whole, is_accepted) {
        (true, _) => 1,
        (false, false) => 18,
        (false, true) => 0,
    };
    assert_eq!(due, view.number, "the model and the clauses disagree on a proposal");
    let writes = usize::from(entry == Entry::Write);
    let answer = [0, 1, 18].iter().position(|&number| number == due);
    tally.add(Group::LayoutAnswers, 3 * writes + answer.expect("0, 1 or 18"));
    count_together(entry, [is_bad, !is_whole, !is_accepted], tally);
    match due {
        0 => count_accepted(&proposal, writes, tally),
        18 => {
            proposal.count_refused(writes, tally);
            count_refused_forms(&proposal, writes, tally);
        }
        _ if is_bad && is_whole => causes.count(entry, view.structures, is_accepted, tally),
        _ => {}
    }
}

/// Counts causes that come together: bad structures, another size of the space, a proposal that is not accepted.
fn count_together(entry: Entry, causes: [bool; 3], tally: &mut Tally) {
    let class = match (entry, causes) {
        (Entry::Check, [true, _, true]) => 4,
        (Entry::Write, [true, false, true]) => 5,
        (Entry::Write, [true, true, false]) => 6,
        (Entry::Write, [false, true, true]) => 7,
        (Entry::Write, [true, true, true]) => 8,
        _ => return,
    };
    tally.add(Group::LayoutTogether, class);
}

/// Counts a proposal that is accepted. None lies below the plan, at any place; else the run stops.
fn count_accepted(proposal: &Proposal<'_>, writes: usize, tally: &mut Tally) {
    let (structures, offsets) = (proposal.structures, proposal.offsets);
    let ways: Vec<usize> = offsets
        .iter()
        .map(|&offset| usize::from(offset))
        .zip(packed(structures))
        .map(|(offset, low)| offset.checked_sub(low).expect("no proposal lies below the plan"))
        .collect();
    let last = structures.len() - 1;
    tally.add(Group::AcceptedCounts, MOST_STRUCTURES * writes + last);
    let first = PROPOSAL_FORMS.len() * writes;
    let mut add_if = |condition, form| tally.add_if(condition, Group::ProposalForms, first + form as usize);
    let free = |place: usize| usize::from(offsets[place]) - proposal.end(place - 1);
    let spare = (3840 - needed(structures)) / 4 * 4;
    let end = proposal.end(last);
    add_if(ways.iter().all(|&way| way == 0), ProposalForm::Lowest);
    add_if(
        spare > 0 && last > 0 && ways[1..].iter().all(|&way| way == spare),
        ProposalForm::Highest,
    );
    add_if(last > 1 && ways[1] > 0, ProposalForm::GapBehindTheFirst);
    add_if(last > 1 && free(last) > 3, ProposalForm::GapBeforeTheLast);
    add_if((1..=last).any(|place| free(place) == 4), ProposalForm::GapOfAWord);
    add_if((1..=last).any(|place| free(place) == 0), ProposalForm::NoGap);
    add_if((1..=last).any(|place| free(place) == 3), ProposalForm::ThreeBytesFree);
    add_if(end == 0x1000, ProposalForm::EndsAt1000h);
    add_if((0xFFD..0x1000).contains(&end), ProposalForm::EndsBefore1000h);
    add_if(offsets[last] == 0xFFC, ProposalForm::LastAtFfch);
    add_if(last == 0, ProposalForm::OnlyOne);
}

/// Counts forms of a proposal that is not accepted.
fn count_refused_forms(proposal: &Proposal<'_>, writes: usize, tally: &mut Tally) {
    let offsets = proposal.offsets;
    let first = PROPOSAL_FORMS.len() * writes;
    let mut add_if = |condition, form| tally.add_if(condition, Group::ProposalForms, first + form as usize);
    if let [(low, high)] = proposal.overlaps[..] {
        let (are_equal, are_neighbours) = (offsets[low] == offsets[high], low.abs_diff(high) == 1);
        add_if(are_equal && are_neighbours, ProposalForm::EqualNeighbours);
        add_if(are_equal && !are_neighbours, ProposalForm::EqualApart);
        add_if(!are_equal && !are_neighbours, ProposalForm::OverlapApart);
    }
    let all_at_100h = offsets.len() > 1 && offsets.iter().all(|&offset| offset == 0x100);
    add_if(all_at_100h, ProposalForm::AllEqual);
    add_if(needed(proposal.structures) > 3840, ProposalForm::NoLayout);
    add_if(offsets.contains(&0xFFFF), ProposalForm::OffsetFfffh);
    add_if(
        offsets.iter().skip(1).any(|&offset| offset == 0),
        ProposalForm::ZeroBehindTheFirst,
    );
}

#[cfg(test)]
mod tests {
    use super::{LayoutView, Structure, Tally, count_check};

    fn count_two(offsets: &[u16], number: u8) {
        let structures = [5, 4].map(|length| Structure {
            id: 1,
            version: 0,
            length,
        });
        let view = LayoutView {
            structures: &structures,
            offsets,
            number,
        };
        count_check(&view, &mut Tally::new());
    }

    #[test]
    fn what_the_clauses_call_for_is_counted() {
        count_two(&[0x100, 0x108], 0);
        count_two(&[0x100, 0xFFC], 0);
        count_two(&[0x100, 0x104], 18);
    }

    #[test]
    #[should_panic(expected = "the model and the clauses disagree on a proposal")]
    fn an_overlap_that_is_accepted_stops_the_run() {
        count_two(&[0x100, 0x104], 0);
    }

    #[test]
    #[should_panic(expected = "the model and the clauses disagree on a proposal")]
    fn a_gap_that_is_refused_stops_the_run() {
        count_two(&[0x100, 0x110], 18);
    }
}
