//! The classes of a call of `plan_layout`, from its inputs and the model's answer. Where the sum of request 10/13 calls
//! for another, the run stops.

use thawribbon::raw::Structure;

use super::group::Group;
use super::layout_names::{PlanForm, PlanRoom};
use super::list_causes::{Entry, ListCauses};
use super::tally::Tally;
use crate::generate::FAR;

/// A call of `plan_layout`, what the room held before, and what the model made of it.
pub struct PlanView<'call> {
    pub structures: &'call [Structure],
    pub before: &'call [u16],
    pub room: &'call [u16],
    pub number: u8,
}

/// "the lengths before the last, each rounded up to 4, plus the last as it stands"
pub fn needed(structures: &[Structure]) -> usize {
    let lengths = structures.iter().map(|structure| usize::from(structure.length));
    let (rounded, last) = lengths.fold((0, 0), |(before, last): (usize, usize), length| {
        (before + last.next_multiple_of(4), length)
    });
    rounded + last
}

/// The offsets of a proposal that leaves nothing free but what the rounding does.
pub fn packed(structures: &[Structure]) -> impl Iterator<Item = usize> {
    let mut next = 0x100;
    structures.iter().map(move |structure| {
        let offset = next;
        next += usize::from(structure.length).next_multiple_of(4);
        offset
    })
}

/// Counts a call in all its classes.
pub fn count(view: &PlanView<'_>, tally: &mut Tally) {
    let (structures, room) = (view.structures, view.room);
    let causes = ListCauses::of(structures);
    let is_small = room.len() < structures.len();
    let needed = needed(structures);
    let is_over = needed > 3840;
    let due = match (causes.is_bad(), is_small, is_over) {
        (true, ..) => 1,
        (_, true, _) => 2,
        (.., true) => 14,
        _ => 0,
    };
    assert_eq!(due, view.number, "the model and the sum disagree on a layout");
    let answer = [0, 1, 2, 14].iter().position(|&number| number == due);
    tally.add(Group::PlanAnswers, answer.expect("a plan is 0, 1, 2 or 14"));
    count_together(causes.is_bad(), is_small, is_over, tally);
    let kept = if due == 0 { structures.len() } else { 0 };
    assert_eq!(room[kept..], view.before[kept..], "a plan writes what it should not");
    match due {
        1 => causes.count(Entry::Plan, structures, !is_small && !is_over, tally),
        2 => tally.add(Group::PlanRooms, small_room(structures.len(), room.len()) as usize),
        14 => count_none(structures, needed, tally),
        _ => count_plan(view, needed, tally),
    }
}

/// Counts causes of two numbers, or of all three.
fn count_together(is_bad: bool, is_small: bool, is_over: bool, tally: &mut Tally) {
    let class = match (is_bad, is_small, is_over) {
        (true, true, false) => 0,
        (true, false, true) => 1,
        (false, true, true) => 2,
        (true, true, true) => 3,
        _ => return,
    };
    tally.add(Group::LayoutTogether, class);
}

const fn small_room(count: usize, room: usize) -> PlanRoom {
    match room {
        0 => PlanRoom::NoPlace,
        _ if room + 1 == count => PlanRoom::OneTooFew,
        _ => PlanRoom::TooFew,
    }
}

const fn enough_room(count: usize, room: usize) -> PlanRoom {
    match room {
        FAR => PlanRoom::NoneIn16Bits,
        _ if room > FAR => PlanRoom::Over16Bits,
        _ if room == count => PlanRoom::JustEnough,
        _ if room == count + 1 => PlanRoom::OneMore,
        _ => PlanRoom::More,
    }
}

/// Counts a plan.
fn count_plan(view: &PlanView<'_>, needed: usize, tally: &mut Tally) {
    let structures = view.structures;
    let planned = view.room[..structures.len()].iter().map(|&offset| usize::from(offset));
    assert!(
        planned.eq(packed(structures)),
        "the model and the sum disagree on a plan"
    );
    tally.add(Group::PlanCounts, structures.len() - 1);
    tally.add(
        Group::PlanRooms,
        enough_room(structures.len(), view.room.len()) as usize,
    );
    count_sum(structures.len(), needed, tally);
    let last = usize::from(view.room[structures.len() - 1]);
    tally.add(Group::PlanOffsets, (last - 0x100) / 4);
    let [first, end] = [&structures[0], &structures[structures.len() - 1]].map(|one| usize::from(one.length));
    if structures.len() > 1 && first < 132 {
        tally.add(Group::PlanSteps, first - 4);
    }
    let before = &structures[..structures.len() - 1];
    for rest in 1..4_u16 {
        let form = PlanForm::Remainder1 as usize + usize::from(rest) - 1;
        tally.add_if(before.iter().any(|one| one.length % 4 == rest), Group::PlanForms, form);
        let form = PlanForm::LastRemainder1 as usize + usize::from(rest) - 1;
        tally.add_if(end % 4 == usize::from(rest), Group::PlanForms, form);
    }
    let mut add_if = |condition, form| tally.add_if(condition, Group::PlanForms, form as usize);
    add_if(first == 3840, PlanForm::Longest);
    add_if(structures.iter().all(|one| one.length == 4), PlanForm::Shortest);
    add_if(needed < 1000, PlanForm::MuchFree);
}

/// Counts structures without a layout.
fn count_none(structures: &[Structure], needed: usize, tally: &mut Tally) {
    let count = structures.len();
    tally.add(Group::NoLayoutCounts, count - 2);
    count_sum(count, needed, tally);
    let as_they_stand: usize = structures.iter().map(|one| usize::from(one.length)).sum();
    let without_the_last = packed(structures).last().map_or(0, |last| last - 0x100);
    let rounded = needed.next_multiple_of(4);
    let mut add_if = |condition, form| tally.add_if(condition, Group::PlanForms, form as usize);
    add_if(as_they_stand <= 3840, PlanForm::OverByRounding);
    add_if(without_the_last <= 3836, PlanForm::OverByTheLast);
    add_if(without_the_last > 3840, PlanForm::OverWithoutTheLast);
    add_if(without_the_last == 3840, PlanForm::NothingForTheLast);
    add_if(needed > 4096 && needed % 4096 <= 3840, PlanForm::FitsIn12Bits);
    add_if(rounded > FAR && needed % FAR <= 3840, PlanForm::FitsIn16Bits);
    add_if(structures[0].length == 3840, PlanForm::FirstTakesAll);
    add_if(structures[count - 1].length == 3840, PlanForm::LastTakesAll);
}

/// Counts a sum around 3,840 by how many structures there are. 960 of them need 3,840 at least.
fn count_sum(count: usize, needed: usize, tally: &mut Tally) {
    let counts = match count {
        0 | 1 => return,
        2 | 3 => count - 2,
        4..=99 => 2,
        100..=958 => 3,
        959 => 4,
        _ => 5,
    };
    match (needed, counts) {
        (3837..=3844, 0..5) => tally.add(Group::PlanSums, 8 * counts + needed - 3837),
        (3840..=3844, _) => tally.add(Group::PlanSums, 40 + needed - 3840),
        _ => {}
    }
}

#[cfg(test)]
mod tests {
    use super::{PlanView, Structure, Tally, count, needed};

    fn of_length(length: u16) -> Structure {
        Structure {
            id: 1,
            version: 0,
            length,
        }
    }

    /// Counts a plan for structures of these lengths, in a room that held ones.
    fn count_plan(lengths: &[u16], room: &[u16], number: u8) {
        let structures: Vec<Structure> = lengths.iter().map(|&length| of_length(length)).collect();
        let view = PlanView {
            structures: &structures,
            before: &vec![1; room.len()],
            room,
            number,
        };
        count(&view, &mut Tally::new());
    }

    #[test]
    fn the_last_is_added_as_it_stands() {
        for (lengths, sum) in [
            (&[5][..], 5),
            (&[5, 5], 13),
            (&[6, 7, 4], 20),
            (&[4, 3837], 3841),
            (&[], 0),
        ] {
            let structures: Vec<Structure> = lengths.iter().map(|&length| of_length(length)).collect();
            assert_eq!(needed(&structures), sum);
        }
    }

    #[test]
    fn what_the_sum_calls_for_is_counted() {
        count_plan(&[5, 4], &[0x100, 0x108, 1], 0);
        count_plan(&[5, 4], &[1], 2);
        count_plan(&[5, 3833], &[1, 1], 14);
        count_plan(&[5, 3841], &[1], 1);
    }

    #[test]
    #[should_panic(expected = "the model and the sum disagree on a layout")]
    fn a_plan_that_cannot_be_stops_the_run() {
        count_plan(&[5, 3833], &[0x100, 0x108], 0);
    }

    #[test]
    #[should_panic(expected = "the model and the sum disagree on a plan")]
    fn a_plan_that_is_not_the_lowest_stops_the_run() {
        count_plan(&[5, 4], &[0x100, 0x10C], 0);
    }

    #[test]
    #[should_panic(expected = "a plan writes what it should not")]
    fn a_refusal_that_writes_stops_the_run() {
        count_plan(&[5, 3833], &[0x100, 1], 14);
    }
}
