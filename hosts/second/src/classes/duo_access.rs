//! The classes of a packet that a board of two functions accepts: whom it is for, what became of it, and what of the other
//! function stayed. Where the model's answer is another than the packet has to get, the run stops.

use thawribbon::raw::{Heard, Parts as AskedParts};

use super::access::{Parts, unsupported_causes};
use super::alone::only;
use super::duo::{DuoHistory, DuoView, captures_place, named};
use super::duo_names::DuoEvent;
use super::edition::{code_place, has_bit_7};
use super::group::Group;
use super::meaning::{CircleView, is_answer, is_done};
use super::tally::Tally;
use crate::twin::word;

/// A packet that is for nobody, as a place beside the primary's 0 and the alternate's 1.
const NEITHER: usize = 2;

/// A packet of number 0 for a board of two functions.
struct Accepted<'call> {
    parts: Parts,
    /// The place of the type code among the six.
    code: usize,
    /// Whose number byte 9 has.
    named: usize,
    /// Whom it is for. A Type 1 request is for nobody, whatever it names.
    whom: usize,
    /// Why it gets Unsupported Request: nothing captured, other bus, other device, poisoned write. None of them counts
    /// where it is for nobody.
    causes: [bool; 4],
    bytes: &'call [u8; 24],
}

impl<'call> Accepted<'call> {
    fn of(view: &DuoView<'call>) -> Self {
        let bytes = &view.case.shared().packet.bytes;
        let parts = Parts::of(bytes);
        let code = code_place(bytes[0]);
        let named = named(bytes[9], view.case.sides.map(|side| side.description.function));
        let whom = if matches!(code, 2 | 3) { NEITHER } else { named };
        let causes = match view.case.sides.get(whom) {
            Some(case) => {
                let [_, _, nothing, bus, device, _, poisoned] = unsupported_causes(case, &parts);
                [nothing, bus, device, poisoned]
            }
            None => [false; 4],
        };
        Self {
            parts,
            code,
            named,
            whom,
            causes,
            bytes,
        }
    }

    fn is_unsupported(&self) -> bool {
        self.whom == NEITHER || self.causes.contains(&true)
    }

    /// The place of the access among ordinary read, ordinary write, trusted read, trusted write, first of the primary.
    const fn access(&self) -> usize {
        4 * self.whom + 2 * self.parts.trusted as usize + self.parts.writes as usize
    }

    /// The place of its way: Type 0, Type 1, trusted.
    const fn way(&self) -> usize {
        self.code / 2
    }
}

/// Counts a call of number 0, and takes it into the board's history.
pub fn count_accepted(view: &DuoView<'_>, history: &mut DuoHistory, tally: &mut Tally) {
    let accepted = Accepted::of(view);
    expect_answered(view, &accepted);
    count_served(view, &accepted, tally);
    if let Some(last) = history.last_whom {
        tally.add(Group::DuoTurns, 3 * last + accepted.whom);
    }
    history.last_whom = Some(accepted.whom);
    if accepted.whom == NEITHER {
        count_neither(view, &accepted, tally);
        return;
    }
    count_others_numbers(view, &accepted, tally);
    if accepted.is_unsupported() {
        count_unsupported(view, &accepted, tally);
    } else {
        count_success(view, &accepted, tally);
        count_captures(view, &accepted, tally);
        count_registers(view, &accepted, history, tally);
    }
}

/// Who answers is the function that the packet is for, and the primary where that is nobody. What it says has to be what
/// became of that function's spaces and of its capture, and nothing of the other one may change.
fn expect_answered(view: &DuoView<'_>, accepted: &Accepted<'_>) {
    let side = if accepted.whom == NEITHER { 0 } else { accepted.whom };
    let answered = answered(view, accepted.bytes, side);
    let other = 1 - side;
    assert!(
        is_answer(&answered) && is_done(&answered, accepted.is_unsupported()),
        "the model and the packet disagree on what a function answers: {:02x?}",
        accepted.bytes
    );
    assert!(
        view.sides[other].is_unchanged() && view.captured_then[other] == view.captures()[other],
        "the model changed something of the other function: {:02x?}",
        accepted.bytes
    );
    let [before, after] = view.replies;
    assert_eq!(
        before[view.length..],
        after[view.length..],
        "the rest of the reply stays"
    );
}

/// What a function was asked, and what was heard of it, both read from their bytes.
fn answered<'call>(view: &DuoView<'call>, bytes: &[u8; 24], side: usize) -> CircleView<'call> {
    let (buffers, reply) = (&view.sides[side], view.replies[1]);
    let data = |bytes: &[u8]| [bytes[12], bytes[13], bytes[14], bytes[15]];
    let parts = AskedParts {
        kind: bytes[0] & 0x7F,
        requester: [bytes[4], bytes[5]],
        tag: bytes[6],
        bus: bytes[8],
        device: bytes[9] / 8,
        function: bytes[9] % 8,
        offset: 256 * (u32::from(bytes[10]) % 16) + 4 * (u32::from(bytes[11]) / 4),
        enables: bytes[7],
        data: data(bytes),
    };
    let heard = Heard {
        number: 0,
        said: match (view.length, reply[0], reply[6]) {
            (16, 0x4A, 0x00) => 1,
            (12, 0x0A, 0x00) => 2,
            (12, 0x0A, 0x20) => 3,
            _ => 0,
        },
        completer: [reply[4], reply[5]],
        requester: [reply[8], reply[9]],
        tag: reply[10],
        data: if view.length == 16 { data(reply) } else { [0; 4] },
    };
    CircleView {
        parts,
        description: view.case.sides[side].description,
        capture: view.captures()[side],
        captured_then: view.captured_then[side],
        heard,
        ordinary: buffers.ordinary,
        ordinary_rules: buffers.ordinary_rules,
        ordinary_marks: buffers.ordinary_marks,
        trusted: buffers.trusted,
        trusted_rules: buffers.trusted_rules,
        trusted_marks: buffers.trusted_marks,
    }
}

/// The place of what was answered, once for edition 1 with bit 7 clear, with bit 7 set, and for edition 2: of each
/// function the success of a read of Type 0, and of the other three type codes success and UR; the four for neither; the two
/// of Type 1 by whom they name.
fn count_served(view: &DuoView<'_>, accepted: &Accepted<'_>, tally: &mut Tally) {
    let form = match view.case.shared().description.edition {
        1 => usize::from(has_bit_7(accepted.bytes[0])),
        _ => 2,
    };
    let access = accepted.access() % 4;
    let place = match (accepted.way(), accepted.whom) {
        (1, _) => 18 + 3 * usize::from(accepted.parts.writes) + accepted.named,
        (_, NEITHER) => 14 + access,
        (_, side) => 7 * side + (2 * access + usize::from(accepted.is_unsupported())).saturating_sub(1),
    };
    tally.add(Group::DuoServed, 24 * form + place);
}

/// Counts a packet that is for nobody by what both functions have captured, and by the number that it names.
fn count_neither(view: &DuoView<'_>, accepted: &Accepted<'_>, tally: &mut Tally) {
    let way = accepted.way();
    tally.add(Group::DuoCompleters, 5 * way + captures_place(view.captures()));
    tally.add(Group::DuoNeither, 8 * way + usize::from(accepted.bytes[9] % 8));
}

/// Counts a trusted request that has the bus and the device that the other function has captured.
fn count_others_numbers(view: &DuoView<'_>, accepted: &Accepted<'_>, tally: &mut Tally) {
    let captures = view.captures();
    let (own, others) = (captures[accepted.whom], captures[1 - accepted.whom]);
    let parts = &accepted.parts;
    if !parts.trusted || others != Some(parts.target()) || accepted.causes[3] {
        return;
    }
    let (bus, device) = parts.target();
    let place = match own {
        None => 0,
        Some((own_bus, own_device)) => match (own_bus == bus, own_device == device) {
            (false, true) => 1,
            (true, false) => 2,
            (false, false) => 3,
            (true, true) => 4,
        },
    };
    tally.add(
        Group::DuoOthers,
        10 * accepted.whom + 2 * place + usize::from(parts.writes),
    );
}

/// Counts a cause of Unsupported Request that stands alone, of each function in both editions.
fn count_unsupported(view: &DuoView<'_>, accepted: &Accepted<'_>, tally: &mut Tally) {
    if let Some(cause) = only(&accepted.causes) {
        let second = if cause == 3 {
            accepted.parts.trusted
        } else {
            accepted.parts.writes
        };
        let edition = view.case.shared().description.edition as usize - 1;
        tally.add(
            Group::DuoUnsupported,
            16 * edition + 8 * accepted.whom + 2 * cause + usize::from(second),
        );
    }
}

fn count_success(view: &DuoView<'_>, accepted: &Accepted<'_>, tally: &mut Tally) {
    let parts = &accepted.parts;
    let access = accepted.access();
    tally.add(Group::DuoEnables, 16 * access + usize::from(parts.enables));
    let [primary, alternate] = view.case.sides.map(|side| usize::from(side.description.function));
    let pair = 7 * primary + alternate - usize::from(alternate > primary);
    tally.add(Group::DuoNumbers, 56 * accepted.whom + pair);
    let side = &view.sides[accepted.whom];
    let [before, after] = if parts.trusted { side.trusted } else { side.ordinary };
    let [_, marks] = side.ruled(parts.trusted);
    let [old, new, mark] = [before, after, marks].map(|bytes| word(bytes, parts.offset));
    tally.add_if(
        !parts.writes || new != old,
        Group::DuoPages,
        16 * access + parts.offset / 256,
    );
    let (changed, cleared) = if parts.trusted {
        (DuoEvent::TrustedChanged, DuoEvent::TrustedCleared)
    } else {
        (DuoEvent::OrdinaryChanged, DuoEvent::OrdinaryCleared)
    };
    let mut add_if = adder(accepted.whom, tally);
    add_if(new != old, changed);
    add_if(old & !new & mark != 0, cleared);
    add_if(parts.writes && parts.enables == 0, DuoEvent::NoByteEnabled);
    add_if(!parts.writes && accepted.bytes[2] & 0x40 != 0, DuoEvent::PoisonedRead);
}

/// Counts an event of one function where a condition holds.
fn adder(side: usize, tally: &mut Tally) -> impl FnMut(bool, DuoEvent) {
    move |condition, event| {
        tally.add_if(condition, Group::DuoEvents, DuoEvent::COUNT * side + event as usize);
    }
}

/// Counts a success by what both functions have captured.
fn count_captures(view: &DuoView<'_>, accepted: &Accepted<'_>, tally: &mut Tally) {
    let captures = view.captures();
    let (own, others) = (captures[accepted.whom], captures[1 - accepted.whom]);
    let target = accepted.parts.target();
    let mut add_if = adder(accepted.whom, tally);
    if accepted.parts.trusted {
        add_if(
            others.is_some_and(|others| others != target),
            DuoEvent::TrustedUnlikeTheOthers,
        );
        add_if(others.is_none(), DuoEvent::TrustedWhileTheOtherHasNone);
        return;
    }
    if !accepted.parts.writes {
        return;
    }
    match own {
        None if others.is_none() => add_if(true, DuoEvent::CaptureFromNothing),
        None => add_if(true, DuoEvent::CaptureFromNothingAfterTheOther),
        Some(own) => {
            add_if(own != target, DuoEvent::AnotherCapture);
            add_if(own == target, DuoEvent::TheSameCapture);
        }
    }
    add_if(others == Some(target), DuoEvent::CaptureOfTheOthers);
    add_if(
        others.is_some_and(|others| others != target),
        DuoEvent::CaptureUnlikeTheOthers,
    );
}

/// Counts a success at A or B, its own or the other function's. At the other's it is a word as any other.
fn count_registers(view: &DuoView<'_>, accepted: &Accepted<'_>, history: &mut DuoHistory, tally: &mut Tally) {
    let side = accepted.whom;
    let [own, others] = [side, 1 - side].map(|side| view.case.sides[side].description);
    let (parts, buffers) = (&accepted.parts, &view.sides[side]);
    let at = |place: u32| parts.offset == place as usize;
    let [before, after] = if parts.trusted {
        buffers.trusted
    } else {
        buffers.ordinary
    };
    let changes = word(before, parts.offset) != word(after, parts.offset);
    let mut add_if = adder(side, tally);
    match (parts.trusted, parts.writes) {
        (false, false) if at(own.a) => {
            let [register, other] = [(side, own), (1 - side, others)]
                .map(|(side, board)| word(view.sides[side].trusted[0], board.b as usize));
            add_if(true, DuoEvent::ReadAtA);
            add_if(register != other, DuoEvent::ReadAtAOfAnotherRegister);
            add_if(history.b_changed[side], DuoEvent::ReadAtAAfterAWriteAtB);
            add_if(history.others_b_changed[side], DuoEvent::ReadAtAAfterTheOthersWriteAtB);
            (history.b_changed[side], history.others_b_changed[side]) = (false, false);
        }
        (false, false) => add_if(at(others.a), DuoEvent::ReadAtTheOthersA),
        (false, true) => {
            add_if(at(own.a), DuoEvent::WriteAtA);
            add_if(at(others.a) && changes, DuoEvent::WriteAtTheOthersA);
        }
        (true, false) => {
            add_if(at(own.b), DuoEvent::TrustedReadAtB);
            add_if(at(others.b) && !at(own.b), DuoEvent::TrustedReadAtTheOthersB);
        }
        (true, true) => {
            add_if(
                at(others.b) && !at(own.b) && changes,
                DuoEvent::TrustedWriteAtTheOthersB,
            );
            if at(own.b) && changes {
                history.b_changed[side] = true;
                history.others_b_changed[1 - side] = true;
            }
        }
    }
}

#[cfg(test)]
mod tests {
    use thawribbon::raw::{Capture, Description};

    use super::super::duo::{DuoHistory, DuoView, SideView};
    use super::super::tally::Tally;
    use super::count_accepted;
    use crate::generate::{DuoCase, Packet, ServeCase};

    const SPACE: [u8; 4096] = [0x3C; 4096];
    const OTHER: [u8; 4096] = {
        let mut other = SPACE;
        other[4095] = 0x3D;
        other
    };
    const RULES: [u8; 4096] = [0; 4096];
    const LENT: [u8; 20] = [0xEE; 20];

    /// The reply to a read that shows the space, by a completer, and one of UR.
    const fn shown(completer: [u8; 2]) -> [u8; 20] {
        let [bus, device] = completer;
        [
            0x4A, 0, 0, 1, bus, device, 0, 4, 1, 0, 7, 0, 0x3C, 0x3C, 0x3C, 0x3C, 0xEE, 0xEE, 0xEE, 0xEE,
        ]
    }

    const fn declined(completer: [u8; 2]) -> [u8; 20] {
        let [bus, device] = completer;
        [
            0x0A, 0, 0, 0, bus, device, 0x20, 4, 1, 0, 7, 0, 0xEE, 0xEE, 0xEE, 0xEE, 0xEE, 0xEE, 0xEE, 0xEE,
        ]
    }

    /// One function of a board: the primary has number 2, and has captured bus 5 and device 3; the alternate has number 6,
    /// and bus 5 and device 4.
    fn side(function: u8, device: u8, packet: Packet) -> ServeCase {
        ServeCase {
            description: Description {
                function,
                a: 0x104,
                b: 0x00C,
                edition: 1,
            },
            kept: Capture {
                captured: 1,
                bus: 5,
                device,
            },
            lengths: [4096; 6],
            doubled: [None; 2],
            packet,
            reply_length: 20,
        }
    }

    /// Counts a read of a type code that names a function, with a reply of so many bytes, after a change of the view.
    fn counted(code: u8, function: u8, length: usize, reply: [u8; 20], change: impl Fn(&mut DuoView<'_>)) {
        let mut bytes = [0; 24];
        bytes[..12].copy_from_slice(&[code, 0, 0, 1, 1, 0, 7, 0x0F, 5, 0x18 | function, 0, 0x10]);
        let packet = Packet { bytes, length: 12 };
        let buffers = SideView {
            ordinary: [&SPACE; 2],
            ordinary_rules: &RULES,
            ordinary_marks: &RULES,
            trusted: [&SPACE; 2],
            trusted_rules: &RULES,
            trusted_marks: &RULES,
        };
        let case = DuoCase {
            sides: [side(2, 3, packet), side(6, 4, packet)],
        };
        let mut view = DuoView {
            case: &case,
            sides: [buffers; 2],
            number: 0,
            length,
            captured_then: [Some((5, 3)), Some((5, 4))],
            replies: [&LENT, &reply],
        };
        change(&mut view);
        count_accepted(&view, &mut DuoHistory::default(), &mut Tally::new());
    }

    #[test]
    fn what_a_packet_has_to_get_is_counted() {
        counted(0x04, 2, 16, shown([5, 0x1A]), |_| {});
        counted(0x04, 6, 16, shown([5, 0x26]), |_| {});
        counted(0x1B, 2, 16, shown([5, 0x1A]), |_| {});
        counted(0x1B, 6, 12, declined([5, 0x26]), |_| {});
        for (code, function) in [(0x04, 0), (0x1B, 7), (0x05, 0), (0x05, 2), (0x05, 6)] {
            counted(code, function, 12, declined([5, 0x1A]), |_| {});
        }
    }

    #[test]
    #[should_panic(expected = "disagree on what a function answers")]
    fn the_other_functions_id_stops_the_run() {
        counted(0x04, 6, 16, shown([5, 0x1A]), |_| {});
    }

    #[test]
    #[should_panic(expected = "disagree on what a function answers")]
    fn the_alternates_id_for_neither_stops_the_run() {
        counted(0x04, 0, 12, declined([5, 0x26]), |_| {});
    }

    #[test]
    #[should_panic(expected = "disagree on what a function answers")]
    fn the_named_functions_id_for_type_1_stops_the_run() {
        counted(0x05, 6, 12, declined([5, 0x26]), |_| {});
    }

    #[test]
    #[should_panic(expected = "disagree on what a function answers")]
    fn a_success_by_the_others_capture_stops_the_run() {
        counted(0x1B, 6, 16, shown([5, 0x26]), |_| {});
    }

    #[test]
    #[should_panic(expected = "disagree on what a function answers")]
    fn a_success_for_neither_stops_the_run() {
        counted(0x04, 0, 16, shown([5, 0x1A]), |_| {});
    }

    #[test]
    #[should_panic(expected = "changed something of the other function")]
    fn a_byte_of_the_other_function_stops_the_run() {
        counted(0x04, 2, 16, shown([5, 0x1A]), |view| view.sides[1].ordinary[1] = &OTHER);
    }

    #[test]
    #[should_panic(expected = "changed something of the other function")]
    fn a_capture_of_the_other_function_stops_the_run() {
        counted(0x04, 6, 16, shown([5, 0x26]), |view| view.captured_then[0] = None);
    }

    #[test]
    #[should_panic(expected = "changed something of the other function")]
    fn a_trusted_byte_of_the_alternate_stops_the_run_for_neither() {
        counted(0x05, 6, 12, declined([5, 0x1A]), |view| {
            view.sides[1].trusted[1] = &OTHER
        });
    }

    #[test]
    #[should_panic(expected = "the rest of the reply stays")]
    fn a_byte_behind_the_reply_stops_the_run() {
        let mut reply = shown([5, 0x1A]);
        reply[19] = 0;
        counted(0x04, 2, 16, reply, |_| {});
    }
}
