//! The classes of a draft, from the structures to the list. Where its steps do not go together, the run stops.

use thawribbon::raw::{Structure, Walked};

use super::chain::Pointers;
use super::group::Group;
use super::layout::LayoutView;
use super::plan::needed;
use super::tally::Tally;
use super::written::{WriteView, is_written};
use crate::generate::{MOST_STRUCTURES, SHAPES};

/// What the two walks answer and list.
#[derive(PartialEq, Eq)]
pub struct Lists {
    pub extended: (Walked, Vec<u16>),
    pub compatible: (Walked, Vec<u16>),
}

/// A draft: what was planned, what was proposed, the numbers of the three steps, and the lists and the space before and
/// after.
pub struct DraftView<'call> {
    pub structures: &'call [Structure],
    pub plan: &'call [u16],
    pub offsets: &'call [u16],
    pub numbers: [u8; 3],
    pub lists: [Lists; 2],
    pub spaces: [&'call [u8]; 2],
}

/// Counts a draft in all its classes.
pub fn count(view: &DraftView<'_>, tally: &mut Tally) {
    let [planned, checked, written] = view.numbers;
    let [before, after] = &view.lists;
    let is_plan = view.offsets == view.plan;
    let has_layout = needed(view.structures) <= 3840;
    assert_eq!(
        planned == 0,
        has_layout,
        "a plan that there is not, or none though there is one"
    );
    assert_eq!(checked, written, "the writer goes by another check");
    assert!(
        planned == 0 || checked == 18,
        "a proposal is accepted though there is none"
    );
    assert!(!is_plan || checked == 0, "a plan is not accepted");
    let is_laid = checked == 0;
    if is_laid {
        assert!(is_as_given(view), "the lists are not what the layout has");
        count_again(view.structures.len(), before, tally);
    } else {
        assert!(
            before == after && view.spaces[0] == view.spaces[1],
            "a refusal changes something"
        );
    }
    let form = match (is_laid, planned) {
        (true, _) => usize::from(!is_plan),
        (false, 0) => 2,
        (false, _) => 3,
    };
    tally.add(Group::DraftForms, form);
    let class = 5 * extended_sort(before) + compatible_sort(before, view.spaces[0]);
    tally.add(Group::DraftLists, 20 * usize::from(is_laid) + class);
}

/// Whether the extended list has exactly the offsets that were given, with the IDs and versions that were, and the
/// compatible one is what it was. The headers are also read byte by byte, along their pointers.
fn is_as_given(view: &DraftView<'_>) -> bool {
    let [before, after] = &view.lists;
    let (walked, listed) = &after.extended;
    let pointers = Pointers::new(SHAPES[1], view.spaces[1]).expect("a whole space");
    let headers = pointers.headers().map(|header| (header.id, header.version));
    let given = view
        .structures
        .iter()
        .map(|one| (usize::from(one.id), usize::from(one.version)));
    let layout = LayoutView {
        structures: view.structures,
        offsets: view.offsets,
        number: 0,
    };
    let [before_it, space] = view.spaces;
    walked.number == 0
        && walked.count == view.structures.len()
        && listed == view.offsets
        && pointers
            .offsets()
            .eq(view.offsets.iter().map(|&offset| usize::from(offset)))
        && headers.eq(given)
        && before.compatible == after.compatible
        && is_written(&WriteView {
            layout,
            before: before_it,
            space,
        })
}

/// The extended list before: empty, sound, 11, 12.
fn extended_sort(lists: &Lists) -> usize {
    match lists.extended.0 {
        Walked { number: 11, .. } => 2,
        Walked { number: 12, .. } => 3,
        Walked { count, .. } => usize::from(count > 0),
    }
}

/// The compatible list before: called empty, empty by its start, sound, 11, 12.
fn compatible_sort(lists: &Lists, space: &[u8]) -> usize {
    match lists.compatible.0 {
        _ if space[0x06] & 0x10 == 0 => 0,
        Walked { number: 11, .. } => 3,
        Walked { number: 12, .. } => 4,
        Walked { count, .. } => 1 + usize::from(count > 0),
    }
}

/// Counts a layout by the sound list that it is written over.
fn count_again(count: usize, before: &Lists, tally: &mut Tally) {
    tally.add_if(count == MOST_STRUCTURES, Group::DraftAgain, 4);
    tally.add_if(count == 1, Group::DraftAgain, 5);
    let Walked { number, count: old, .. } = before.extended.0;
    if number == 0 && old > 0 {
        tally.add(
            Group::DraftAgain,
            1 + usize::from(count > old) - usize::from(count < old),
        );
        tally.add_if(old == MOST_STRUCTURES, Group::DraftAgain, 3);
    }
}

#[cfg(test)]
mod tests {
    use super::{DraftView, Lists, Structure, Tally, Walked, count};

    const fn listed(count: usize) -> Walked {
        Walked {
            count,
            number: 0,
            place: 0,
        }
    }

    /// A structure at 100h of a space of zeros, after which these lists are told, and a byte is as told.
    fn count_one(extended: u16, compatible: usize, place: usize, byte: u8) {
        let structures = [Structure {
            id: 0x0023,
            version: 1,
            length: 4,
        }];
        let before = [0; 4096];
        let mut space = before;
        space[0x100..0x104].copy_from_slice(&[0x23, 0x00, 0x01, 0x00]);
        space[place] = byte;
        let view = DraftView {
            structures: &structures,
            plan: &[0x100],
            offsets: &[0x100],
            numbers: [0; 3],
            lists: [(0, 0), (1, compatible)].map(|(count, compatible)| Lists {
                extended: (listed(count), vec![extended; count]),
                compatible: (listed(compatible), vec![0x40; compatible]),
            }),
            spaces: [&before, &space],
        };
        count(&view, &mut Tally::new());
    }

    #[test]
    fn a_list_as_given_is_counted() {
        count_one(0x100, 0, 0x100, 0x23);
    }

    #[test]
    #[should_panic(expected = "the lists are not what the layout has")]
    fn another_offset_stops_the_run() {
        count_one(0x104, 0, 0x100, 0x23);
    }

    #[test]
    #[should_panic(expected = "the lists are not what the layout has")]
    fn another_id_stops_the_run() {
        count_one(0x100, 0, 0x100, 0x24);
    }

    #[test]
    #[should_panic(expected = "the lists are not what the layout has")]
    fn another_byte_stops_the_run() {
        count_one(0x100, 0, 0x104, 0x01);
    }

    #[test]
    #[should_panic(expected = "the lists are not what the layout has")]
    fn another_compatible_list_stops_the_run() {
        count_one(0x100, 1, 0x100, 0x23);
    }
}
