//! The classes of a call of `write_layout`, from its inputs, the space before and the space that the model left.

use super::chain::{Ending, Pointers};
use super::group::Group;
use super::layout::{LayoutView, count_by};
use super::layout_names::WrittenForm;
use super::list_causes::Entry;
use super::tally::Tally;
use crate::generate::{NAMED_LENGTHS, SHAPES, named_length_place};
use crate::twin::word;

/// A call of `write_layout`, and what the model made of the space.
pub struct WriteView<'call> {
    pub layout: LayoutView<'call>,
    pub before: &'call [u8],
    pub space: &'call [u8],
}

/// Counts a call in all its classes. Where the space is not as its headers and all else call for, the run stops.
pub fn count(view: &WriteView<'_>, tally: &mut Tally) {
    if let Some(length) = named_length_place(view.before.len()) {
        tally.add(Group::SpaceLengths, 11 * NAMED_LENGTHS + length);
    }
    count_by(&view.layout, Entry::Write, view.before.len() == 4096, tally);
    if view.layout.number == 0 {
        assert!(is_written(view), "the model and the bytes disagree on what is written");
        return count_written(view, tally);
    }
    assert_eq!(view.before, view.space, "a refusal changes the space");
    if view.layout.number == 18 {
        tally.add(Group::WrittenForms, WrittenForm::NotAccepted as usize);
        let is_sound = matches!(ending(view.before), Ending::End { count: 1.. });
        tally.add_if(is_sound, Group::WrittenForms, WrittenForm::NotAcceptedOverList as usize);
    }
}

/// Where the pointers of the extended list lead in a whole space.
fn ending(space: &[u8]) -> Ending {
    let pointers = Pointers::new(SHAPES[1], space).expect("a whole space");
    pointers.follow().ending
}

/// Whether each header has its four bytes, and every other byte is as it was.
pub fn is_written(view: &WriteView<'_>) -> bool {
    let (structures, offsets) = (view.layout.structures, view.layout.offsets);
    let mut due = view.before.to_vec();
    for (place, structure) in structures.iter().enumerate() {
        let next = offsets.get(place + 1).copied().unwrap_or(0);
        let [id_low, id_high] = structure.id.to_le_bytes();
        let middle = structure.version + 16 * (next % 16);
        let at = usize::from(offsets[place]);
        due[at] = id_low;
        due[at + 1] = id_high;
        due[at + 2] = middle as u8;
        due[at + 3] = (next / 16) as u8;
    }
    due == view.space
}

/// Counts the headers that were written, by what they have and by what was there before.
fn count_written(view: &WriteView<'_>, tally: &mut Tally) {
    let (structures, offsets) = (view.layout.structures, view.layout.offsets);
    let (mut set, mut clear) = (0, 0);
    for (structure, &offset) in structures.iter().zip(offsets) {
        let at = usize::from(offset);
        set |= structure.id;
        clear |= !structure.id;
        tally.add(Group::HeaderWords, (at - 0x100) / 4);
        tally.add(Group::HeaderVersions, structure.version.into());
        let before = word(view.before, at);
        tally.add_if(before == 0, Group::WrittenForms, WrittenForm::OverZero as usize);
        tally.add_if(before == u32::MAX, Group::WrittenForms, WrittenForm::OverOnes as usize);
        let lost = before >> 16 & 0xF & !u32::from(structure.version);
        tally.add_if(lost != 0, Group::WrittenForms, WrittenForm::VersionBitsCleared as usize);
    }
    for bit in 0..16 {
        tally.add_if(set >> bit & 1 == 1, Group::HeaderIds, 2 * bit + 1);
        tally.add_if(clear >> bit & 1 == 1, Group::HeaderIds, 2 * bit);
    }
    let last = usize::from(offsets[offsets.len() - 1]);
    let had_pointer = word(view.before, last) >> 20 != 0;
    tally.add_if(
        had_pointer,
        Group::WrittenForms,
        WrittenForm::LastPointerCleared as usize,
    );
    let is_as_before = view.before == view.space;
    tally.add_if(is_as_before, Group::WrittenForms, WrittenForm::AsItWas as usize);
    count_old_headers(view, tally);
}

/// Counts a write over a sound list of which a header is none now, and so stays.
fn count_old_headers(view: &WriteView<'_>, tally: &mut Tally) {
    let pointers = Pointers::new(SHAPES[1], view.before).expect("a whole space");
    let Ending::End { count } = pointers.follow().ending else {
        return;
    };
    let mut old = pointers.offsets().take(count);
    let stays = old.any(|at| view.layout.offsets.binary_search(&(at as u16)).is_err());
    tally.add_if(stays, Group::WrittenForms, WrittenForm::OldHeaderStays as usize);
}
