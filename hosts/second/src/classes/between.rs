//! The classes of packets that are repeated after something else. Request 12/13 asks for "nothing between": what may then be
//! otherwise is counted here, and a packet between that changes nothing has to change nothing about either.

use thawribbon::raw::Description;

use super::apart::whom;
use super::between_names::Fear;
use super::edition::code_place;
use super::given::Given;
use super::group::Group;
use super::tally::Tally;
use crate::generate::{Between, Packet, Snapshot};

/// A packet, what came between, and the packet again.
pub struct BetweenView<'call> {
    pub kind: Between,
    /// The function that the packet was made for, and the descriptions of all.
    pub side: usize,
    pub descriptions: Vec<Description>,
    pub packet: &'call Packet,
    /// A packet that came between, and what it was given.
    pub between: Option<(Packet, Given)>,
    /// What the packet was given, and what its repeat was.
    pub given: [Given; 2],
    /// What the board had after the packet, after what came between, and after the repeat.
    pub after: [&'call Snapshot; 3],
}

/// What packets come to that are repeated: the four successes, UR and refusals.
const OUTCOMES: usize = 6;
/// What comes between and changes nothing: an ordinary and a trusted read, UR, and 1 to 6.
const IDLE: usize = 9;
/// How many classes there are for what comes between and changes nothing, on a board of one function and of two.
pub const IDLE_PLACES: usize = OUTCOMES * IDLE;
pub const DUO_IDLE_PLACES: usize = 2 * IDLE;
/// How many classes there are for packets of the other function: both functions, four successes, and what came between.
pub const OTHERS_PLACES: usize = 2 * 4 * 5;

/// The outcome of a packet: ordinary read, ordinary write, trusted read, trusted write, UR, refused.
fn outcome(packet: &Packet, given: &Given) -> usize {
    match (given.number, given.is_success(), code_place(packet.bytes[0])) {
        (0, true, code @ (0 | 1)) => code,
        (0, true, code) => code - 2,
        (0, false, _) => 4,
        _ => 5,
    }
}

/// Counts a packet that was repeated after something else.
pub fn count(view: &BetweenView<'_>, tally: &mut Tally) {
    let [first, again] = view.given;
    let outcome = outcome(view.packet, &first);
    assert!(
        outcome != 1 || first == again,
        "an ordinary write that captures its own number is answered otherwise the second time: {first:02x?}, {again:02x?}"
    );
    match &view.between {
        Some((between, given)) if view.kind.is_idle() => count_idle(view, outcome, between, given, tally),
        Some((between, given)) if view.kind == Between::OtherFunction => {
            count_others(view, outcome, between, given, tally);
        }
        _ => {
            if let Some(fear) = Otherwise::of(view).fear(view.kind, outcome) {
                count_fear(view, fear, tally);
            }
            let leaves_another = view.kind == Between::OtherData && spaces_differ(view, 0);
            match outcome {
                1 if leaves_another => count_fear(view, Fear::OrdinaryWriteLeavesAnother, tally),
                3 if leaves_another => count_fear(view, Fear::TrustedWriteLeavesAnother, tally),
                _ => {}
            }
        }
    }
}

/// Counts a packet between that changes nothing. Where the packet's repeat is given something else then, or anything changes,
/// the run stops.
fn count_idle(view: &BetweenView<'_>, outcome: usize, between: &Packet, given: &Given, tally: &mut Tally) {
    let idle = match (given.number, given.is_success(), code_place(between.bytes[0])) {
        (0, true, 0) => 0,
        (0, true, 4) => 1,
        (0, true, _) => return,
        (0, false, _) => 2,
        (number, ..) => 2 + usize::from(number),
    };
    assert!(
        view.given[0] == view.given[1] && view.after[0] == view.after[1] && view.after[1] == view.after[2],
        "a read, UR or a refusal between matters to a packet's repeat: {:02x?}, {:02x?}",
        view.packet.as_slice(),
        between.as_slice()
    );
    if view.descriptions.len() == 1 {
        tally.add(Group::BetweenIdle, IDLE * outcome + idle);
    } else {
        tally.add(Group::BetweenDuoIdle, IDLE * view.side + idle);
    }
}

/// Counts a packet for one function that succeeds, with one for the other function between. Where that matters, the run stops.
fn count_others(view: &BetweenView<'_>, success: usize, between: &Packet, given: &Given, tally: &mut Tally) {
    let numbers = [view.descriptions[0].function, view.descriptions[1].function];
    let edition = view.descriptions[0].edition;
    let [own, other] = [view.packet, between].map(|packet| whom(packet, edition, numbers));
    if success >= 4 || own != view.side || other != 1 - view.side {
        return;
    }
    let [first, second, third] = view.after.map(|after| &after.sides[view.side]);
    assert!(
        view.given[0] == view.given[1] && first == second && second == third,
        "a packet for the other function between matters to a packet's repeat: {:02x?}, {:02x?}",
        view.packet.as_slice(),
        between.as_slice()
    );
    let between = outcome(between, given);
    if between < 5 {
        tally.add(Group::BetweenOthers, 5 * (4 * view.side + success) + between);
    }
}

/// Whether the spaces of the function differ after the repeat from what they were after the packet, or after what came
/// between.
fn spaces_differ(view: &BetweenView<'_>, before: usize) -> bool {
    let [before, after] = [view.after[before], view.after[2]].map(|after| &after.sides[view.side].spaces);
    before != after
}

/// What is otherwise the second time.
struct Otherwise {
    /// A read at the board's A, that is not trusted.
    at_a: bool,
    other_data: bool,
    other_completer: bool,
    unsupported: bool,
    success: bool,
    /// The repeat captured again, or changed a byte again.
    captured: bool,
    changed: bool,
    same: bool,
}

impl Otherwise {
    fn of(view: &BetweenView<'_>) -> Self {
        let [first, again] = view.given;
        let [_, between, after] = view.after.map(|after| after.sides[view.side].capture);
        Self {
            at_a: view.packet.offset() == view.descriptions[view.side].a as usize,
            other_data: again.is_success() && first.data() != again.data(),
            other_completer: first.completer() != again.completer() && first.is_unsupported() == again.is_unsupported(),
            unsupported: again.is_unsupported(),
            success: again.is_success(),
            captured: between != after,
            changed: spaces_differ(view, 1),
            same: first == again,
        }
    }

    /// What there is to fear of it, by what came between and by what the packet came to first.
    const fn fear(&self, kind: Between, outcome: usize) -> Option<Fear> {
        let (met, fear) = match (kind, outcome) {
            (Between::OtherData, 0) => (self.other_data, Fear::OrdinaryReadOfOtherData),
            (Between::OtherData, 2) => (self.other_data, Fear::TrustedReadOfOtherData),
            (Between::OtherData, 1) => (self.changed, Fear::OrdinaryWriteUndoesAnother),
            (Between::OtherData, 3) => (self.changed, Fear::TrustedWriteUndoesAnother),
            (Between::Register, 0) => (self.at_a && self.other_data, Fear::RegisterWritten),
            (Between::AnotherCapture, 2) => (self.unsupported, Fear::TrustedReadAfterAnotherCapture),
            (Between::AnotherCapture, 3) => (self.unsupported, Fear::TrustedWriteAfterAnotherCapture),
            (Between::AnotherCapture, 0) => (self.other_completer, Fear::OrdinaryReadAfterAnotherCapture),
            (Between::AnotherCapture, 1) => (self.captured, Fear::OrdinaryWriteAfterAnotherCapture),
            (Between::AnotherCapture, 4) if self.success => (true, Fear::UnsupportedThenCaptured),
            (Between::AnotherCapture, 4) => (self.other_completer, Fear::UnsupportedAfterAnotherCapture),
            (Between::Reset, 2) => (self.unsupported, Fear::TrustedReadAfterReset),
            (Between::Reset, 3) => (self.unsupported, Fear::TrustedWriteAfterReset),
            (Between::Reset, 0) => (self.other_completer, Fear::OrdinaryReadAfterReset),
            (Between::Reset, 1) => (self.captured, Fear::OrdinaryWriteAfterReset),
            (Between::Reset, 4) => (self.other_completer, Fear::UnsupportedAfterReset),
            (Between::Reset, _) => (self.same, Fear::RefusalAfterReset),
            (Between::Errors, 1) => (self.changed, Fear::OrdinaryWriteClearsAgain),
            (Between::Errors, 3) => (self.changed, Fear::TrustedWriteClearsAgain),
            (Between::Errors, 0) if self.at_a => (self.other_data, Fear::RegisterWithErrors),
            (Between::Errors, 0) => (self.other_data, Fear::OrdinaryReadOfErrors),
            (Between::Errors, 2) => (self.other_data, Fear::TrustedReadOfErrors),
            _ => return None,
        };
        if met { Some(fear) } else { None }
    }
}

/// Counts it by the edition of a board of one function, and by the function of a board of two.
fn count_fear(view: &BetweenView<'_>, fear: Fear, tally: &mut Tally) {
    if view.descriptions.len() == 1 {
        let edition = view.descriptions[0].edition as usize - 1;
        tally.add(Group::BetweenFears, Fear::COUNT * edition + fear as usize);
    } else {
        tally.add(Group::BetweenDuoFears, Fear::COUNT * view.side + fear as usize);
    }
}

#[cfg(test)]
mod tests {
    use thawribbon::raw::Description;

    use super::{Between, BetweenView, Fear, Given, Otherwise, Packet, Snapshot, count};
    use crate::classes::Tally;
    use crate::generate::Side;

    /// A reply to an ordinary write, and one to an ordinary read.
    const WRITTEN: [u8; 12] = [0x0A, 0, 0, 0, 5, 0x18, 0, 4, 1, 0, 7, 0];
    const READ: [u8; 16] = [0x4A, 0, 0, 1, 5, 0x18, 0, 4, 1, 0, 7, 0, 9, 8, 7, 6];

    fn packet(first: u8, function: u8) -> Packet {
        let mut bytes = [0; 24];
        (bytes[0], bytes[3], bytes[9]) = (first, 1, function);
        Packet {
            bytes,
            length: if first & 0x40 == 0 { 12 } else { 16 },
        }
    }

    fn snapshot(byte: u8) -> Snapshot {
        let side = Side {
            spaces: [vec![byte; 4], vec![0; 4]],
            capture: Some((5, 3)),
        };
        Snapshot {
            sides: vec![side.clone(), side],
        }
    }

    /// Counts an ordinary read of function 0 with a packet between that is for function 0 or 1, with a change.
    fn counted(kind: Between, change: impl Fn(&mut BetweenView<'_>)) {
        let (read, same) = (packet(0x04, 0), snapshot(1));
        let description = Description {
            edition: 1,
            ..Description::default()
        };
        let mut view = BetweenView {
            kind,
            side: 0,
            descriptions: vec![
                description,
                Description {
                    function: 1,
                    ..description
                },
            ],
            packet: &read,
            between: Some((packet(0x04, 1), Given::new(0, &READ))),
            given: [Given::new(0, &READ); 2],
            after: [&same; 3],
        };
        change(&mut view);
        count(&view, &mut Tally::new());
    }

    #[test]
    fn what_changes_nothing_is_counted() {
        counted(Between::Read, |_| {});
        counted(Between::OtherFunction, |_| {});
        counted(Between::Refusal, |view| {
            view.between = Some((packet(0, 0), Given::new(4, &[])))
        });
    }

    #[test]
    #[should_panic(expected = "matters to a packet's repeat")]
    fn a_read_between_that_matters_stops_the_run() {
        counted(Between::Read, |view| view.given[1] = Given::new(3, &[]));
    }

    #[test]
    #[should_panic(expected = "for the other function between matters")]
    fn a_packet_for_the_other_function_that_matters_stops_the_run() {
        counted(Between::OtherFunction, |view| view.given[1] = Given::new(3, &[]));
    }

    #[test]
    #[should_panic(expected = "answered otherwise the second time")]
    fn another_answer_to_an_ordinary_write_stops_the_run() {
        let write = packet(0x44, 0);
        counted(Between::Reset, |view| {
            let other = Given::new(0, &WRITTEN).for_requester_of(&[9; 7]);
            view.given = [Given::new(0, &WRITTEN), other];
            view.between = None;
            // The packet outlives the view in no other way.
            view.packet = Box::leak(Box::new(write));
        });
    }

    #[test]
    fn what_there_is_to_fear_hangs_on_what_is_otherwise() {
        let nothing = Otherwise {
            at_a: false,
            other_data: false,
            other_completer: false,
            unsupported: false,
            success: true,
            captured: false,
            changed: false,
            same: true,
        };
        assert!((0..5).all(|outcome| nothing.fear(Between::Reset, outcome).is_none()));
        assert!((0..6).all(|outcome| nothing.fear(Between::Errors, outcome).is_none()));
        let cleared = Otherwise {
            changed: true,
            ..nothing
        };
        let fear = cleared.fear(Between::Errors, 3).map(|fear| fear as usize);
        assert_eq!(fear, Some(Fear::TrustedWriteClearsAgain as usize));
    }
}
