//! The classes of a circle, from what was asked, what was heard, and the board.

use thawribbon::raw::Parts;

use super::alone::only;
use super::ask_names::{CIRCLES, Effect};
use super::group::Group;
use super::meaning::{CircleView, is_answer, is_done, shown};
use super::tally::Tally;
use super::whole::Read;
use crate::generate::is_write;

/// Counts a circle in all its classes. Where what was heard is not what became of the request, the run stops.
pub fn count(view: &CircleView<'_>, tally: &mut Tally) {
    let causes = unsupported_causes(view);
    let unsupported = causes.contains(&true);
    assert!(
        is_answer(view) && is_done(view, unsupported),
        "a completion does not say what became of the request: {:x?}, {:x?}",
        view.parts,
        view.heard
    );
    let outcome = outcome(view.parts.kind, unsupported);
    tally.add(Group::Circles, outcome);
    let edition = view.description.edition as usize - 1;
    tally.add(Group::CircleEditions, CIRCLES.len() * edition + outcome);
    if let Some(cause) = only(&causes) {
        let writes = usize::from(is_write(view.parts.kind));
        tally.add(Group::CircleUnsupported, 2 * cause + writes);
    }
    if !unsupported {
        let place = view.parts.offset as usize / 4;
        tally.add(Group::CircleOffsets, place);
        let access = 2 * usize::from(view.is_trusted()) + usize::from(is_write(view.parts.kind));
        tally.add(Group::CircleEnables, 16 * access + usize::from(view.parts.enables));
        if !is_write(view.parts.kind) {
            count_read(view, tally);
        }
        count_effect(view, tally);
    }
}

/// Counts a read by its enables, where what was heard tells that it is under none.
fn count_read(view: &CircleView<'_>, tally: &mut Tally) {
    let [stored, ..] = view.bytes();
    let read = Read {
        trusted: view.is_trusted(),
        enables: view.parts.enables,
        due: shown(view),
        stored_at_a: view.is_at_a().then_some(stored),
    };
    if let Some(class) = read.enables_class() {
        tally.add(Group::CircleReads, class);
    }
}

/// The causes of Unsupported Request that a request without poison can have, in the order of the group's names.
fn unsupported_causes(view: &CircleView<'_>) -> [bool; 6] {
    let parts = &view.parts;
    let (type_1, trusted) = (matches!(parts.kind, 0x05 | 0x45), view.is_trusted());
    let other_function = parts.function != view.description.function;
    let differs =
        |is_other: fn((u8, u8), &Parts) -> bool| trusted && view.capture.is_some_and(|kept| is_other(kept, parts));
    [
        type_1,
        !type_1 && !trusted && other_function,
        trusted && view.capture.is_none(),
        differs(|(bus, _), parts| bus != parts.bus),
        differs(|(_, device), parts| device != parts.device),
        trusted && other_function,
    ]
}

/// The place of what became of a kind among the names.
pub fn outcome(kind: u8, unsupported: bool) -> usize {
    let kinds: &[u8] = if unsupported {
        &[0x04, 0x44, 0x05, 0x45, 0x1B, 0x5B]
    } else {
        &[0x04, 0x44, 0x1B, 0x5B]
    };
    let place = kinds.iter().position(|&other| other == kind);
    4 * usize::from(unsupported) + place.expect("Type 1 is never done")
}

/// Counts a success by what it came to on the board.
fn count_effect(view: &CircleView<'_>, tally: &mut Tally) {
    let parts = &view.parts;
    let [old, new, ..] = view.bytes();
    let (trusted, at_a) = (view.is_trusted(), view.is_at_a());
    let at_b = trusted && parts.offset == view.description.b;
    let mut add_if = |condition, effect| tally.add_if(condition, Group::Effects, effect as usize);
    if !is_write(parts.kind) {
        let shows = view.heard.data != [0; 4];
        add_if(shows && !trusted && !at_a, Effect::OrdinaryShown);
        add_if(shows && at_a, Effect::OrdinaryShownAtA);
        add_if(shows && trusted && !at_b, Effect::TrustedShown);
        add_if(shows && at_b, Effect::TrustedShownAtB);
        return add_if(shows && parts.enables == 0, Effect::NothingEnabledRead);
    }
    let enabled = |place: usize| parts.enables >> place & 1 == 1;
    let wanted = (0..4).any(|place| enabled(place) && parts.data[place] != old[place]);
    let missed = (0..4).any(|place| enabled(place) && parts.data[place] != new[place]);
    let changed = new != old;
    add_if(!trusted && changed, Effect::OrdinaryChanged);
    add_if(!trusted && !at_a && wanted && !changed, Effect::OrdinaryKept);
    add_if(!trusted && changed && missed, Effect::OrdinaryBitsKept);
    add_if(at_a && wanted, Effect::OrdinaryWriteAtA);
    add_if(trusted && changed, Effect::TrustedChanged);
    add_if(trusted && wanted && !changed, Effect::TrustedKept);
    add_if(trusted && changed && missed, Effect::TrustedBitsKept);
    add_if(at_b && changed, Effect::TrustedChangedAtB);
    add_if(parts.enables == 0, Effect::NothingEnabledWritten);
    add_if(view.captured_then != view.capture, Effect::Captured);
    count_marked(view, tally);
}

/// Counts a write by what it came to for marked bits that were 1.
fn count_marked(view: &CircleView<'_>, tally: &mut Tally) {
    let [old, new, _, marks] = view.bytes().map(u32::from_le_bytes);
    let (trusted, at_a) = (view.is_trusted(), view.is_at_a());
    let at_b = trusted && view.parts.offset == view.description.b;
    let cleared = marks & old & !new != 0;
    let kept = marks & new != 0;
    let mut add_if = |condition, effect| tally.add_if(condition, Group::Effects, effect as usize);
    add_if(!trusted && cleared, Effect::OrdinaryCleared);
    add_if(!trusted && !at_a && kept, Effect::OrdinaryMarksKept);
    add_if(at_a && view.meets_marks_at_a(), Effect::OrdinaryWriteAtAOverMarks);
    add_if(trusted && cleared, Effect::TrustedCleared);
    add_if(trusted && kept, Effect::TrustedMarksKept);
    add_if(at_b && cleared, Effect::TrustedClearedAtB);
}
