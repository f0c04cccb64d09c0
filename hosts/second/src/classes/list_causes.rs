//! Why a list of structures is bad, by bounds of its numbers, and the classes of that for the three entries.

use thawribbon::raw::Structure;

use super::group::Group;
use super::layout_names::{LIST_CAUSES, LIST_TWO, LIST_VALUES};
use super::tally::Tally;
use crate::generate::{FAR, MOST_STRUCTURES};

/// The entry that a list is given to.
#[derive(Clone, Copy, Debug, PartialEq, Eq)]
pub enum Entry {
    Plan,
    Check,
    Write,
}

/// The causes of one structure, by their places in [`LIST_CAUSES`].
const ID: usize = 5;
const VERSION: usize = 6;
const UNDER: usize = 7;
const OVER: usize = 8;

/// All causes of the number 1 that a list has.
pub struct ListCauses {
    /// The cause of how many there are.
    count: Option<usize>,
    /// The place of each structure with a cause, and the cause.
    structures: Vec<(usize, usize)>,
}

impl ListCauses {
    pub fn of(structures: &[Structure]) -> Self {
        let count = match structures.len() {
            0 => Some(0),
            1..=MOST_STRUCTURES => None,
            961 => Some(1),
            count if count > FAR && count <= FAR + MOST_STRUCTURES => Some(4),
            count if count > 1024 && count <= 1024 + MOST_STRUCTURES => Some(3),
            _ => Some(2),
        };
        let places = structures.iter().enumerate();
        let of_each = places.flat_map(|(place, structure)| causes(structure).map(move |cause| (place, cause)));
        Self {
            count,
            structures: of_each.collect(),
        }
    }

    pub fn is_bad(&self) -> bool {
        self.count.is_some() || !self.structures.is_empty()
    }

    /// Counts a bad list by its only cause, or by two. Whether nothing else is wrong with the call is told by the caller.
    pub fn count(&self, entry: Entry, structures: &[Structure], nothing_else: bool, tally: &mut Tally) {
        let entry = entry as usize;
        let two = match (self.count, &self.structures[..]) {
            (Some(cause), []) => return tally.add(Group::ListCauses, LIST_CAUSES.len() * entry + cause),
            (None, &[(place, cause)]) => {
                tally.add(Group::ListCauses, LIST_CAUSES.len() * entry + cause);
                tally.add_if(nothing_else && cause != OVER, Group::ListAlone, 3 * entry + cause - ID);
                return count_one(entry, structures, place, cause, tally);
            }
            (Some(_), [_]) => 5,
            (None, [(one, first), (other, second)]) => two(one == other, *first, *second),
            _ => return,
        };
        tally.add(Group::ListTwo, LIST_TWO.len() * entry + two);
    }
}

/// The causes of a structure.
fn causes(structure: &Structure) -> impl Iterator<Item = usize> {
    let present = [
        (structure.id == 0, ID),
        (structure.version > 15, VERSION),
        (structure.length < 4, UNDER),
        (structure.length > 3840, OVER),
    ];
    present
        .into_iter()
        .filter_map(|(present, cause)| present.then_some(cause))
}

/// The place of two causes among the names.
const fn two(of_one: bool, first: usize, second: usize) -> usize {
    match (of_one, first, second) {
        (true, ID, VERSION) => 0,
        (true, ID, _) => 1,
        (true, ..) => 2,
        (false, ..) if first == second => 3,
        (false, ..) => 4,
    }
}

/// Counts the only cause of a list by its place and by its value.
fn count_one(entry: usize, structures: &[Structure], place: usize, cause: usize, tally: &mut Tally) {
    tally.add(Group::ListPlaces, MOST_STRUCTURES * entry + place);
    let form = match (place, structures.len()) {
        (_, 1) => 0,
        (0, _) => 1,
        (_, count) if place + 1 == count => 3,
        _ => 2,
    };
    tally.add(Group::ListForms, 4 * (4 * entry + cause - ID) + form);
    if let Some(value) = value(&structures[place], cause) {
        tally.add(Group::ListValues, LIST_VALUES.len() * entry + value);
    }
}

/// The place of a wrong value among the names.
fn value(structure: &Structure, cause: usize) -> Option<usize> {
    let (version, length) = (structure.version, structure.length);
    match cause {
        VERSION if version == 16 => Some(12),
        VERSION if version == 0xFFFF => Some(13),
        VERSION => {
            let over = version >> 4;
            over.is_power_of_two().then(|| over.ilog2() as usize)
        }
        UNDER => Some(14 + usize::from(length)),
        OVER => match length {
            3841..=3844 => Some(18 + usize::from(length - 3841)),
            4096 => Some(22),
            0xFFFF => Some(23),
            _ => {
                let (over, low) = (length >> 12, length & 0xFFF);
                let is_one_bit = over.is_power_of_two() && (4..=3840).contains(&low);
                is_one_bit.then(|| 24 + over.ilog2() as usize)
            }
        },
        _ => None,
    }
}

#[cfg(test)]
mod tests {
    use super::{LIST_VALUES, ListCauses, OVER, UNDER, VERSION, value};
    use thawribbon::raw::Structure;

    const GOOD: Structure = Structure {
        id: 1,
        version: 15,
        length: 4,
    };

    #[test]
    fn every_named_value_is_some_structures() {
        let versions = (16..=0xFFFF).map(|version| value(&Structure { version, ..GOOD }, VERSION));
        let under = (0..4).map(|length| value(&Structure { length, ..GOOD }, UNDER));
        let over = (3841..=0xFFFF).map(|length| value(&Structure { length, ..GOOD }, OVER));
        let mut met = vec![false; LIST_VALUES.len()];
        versions
            .chain(under)
            .chain(over)
            .flatten()
            .for_each(|place| met[place] = true);
        assert!(met.iter().all(|&met| met));
    }

    #[test]
    fn good_lists_have_no_cause() {
        for (count, is_bad) in [
            (0, true),
            (1, false),
            (960, false),
            (961, true),
            (1025, true),
            (65_537, true),
        ] {
            assert_eq!(ListCauses::of(&vec![GOOD; count]).is_bad(), is_bad, "{count}");
        }
    }
}
