//! The classes of two boards side by side, after a look that both answered alike and are alike. Request 9/13: "Show once,
//! for either edition, that packets with bit 7 clear are answered alike."

use thawribbon::raw::{Description, Served};

use super::answers::{OF_SORTS, answer, count, place};
use super::edition::{code_place, has_bit_7};
use super::group::Group;
use super::pair_names::PairEvent;
use super::tally::Tally;
use crate::generate::Relation;
use crate::twin::word;

/// What two boards have in the end, each time of both.
pub struct Boards<'call> {
    pub ordinary: [&'call [u8]; 2],
    pub trusted: [&'call [u8]; 2],
    pub captures: [Option<(u8, u8)>; 2],
}

impl Boards<'_> {
    pub fn are_alike(&self) -> bool {
        let [ordinary, trusted] = [self.ordinary, self.trusted].map(|[first, second]| first == second);
        ordinary && trusted && self.captures[0] == self.captures[1]
    }
}

/// A packet that both boards of a pair were given, and what the model made of it.
pub struct PairView<'call> {
    pub relation: Relation,
    pub description: Description,
    /// What the first was given.
    pub packet: &'call [u8],
    pub served: [Served; 2],
    /// The written bytes of both replies.
    pub written: [&'call [u8]; 2],
    /// The first board's spaces and its capture before, ordinary and trusted, and the marks of both.
    pub before: [&'call [u8]; 2],
    pub marks: [&'call [u8]; 2],
    pub capture: Option<(u8, u8)>,
    pub boards: Boards<'call>,
}

/// How many classes there are for the answers of each relation. Those of the empty packet are the last three.
pub const PAIR_ANSWERS: usize = count(&OF_SORTS) + 3;

/// Counts a packet that both boards were given. Where they do not answer alike, or are not alike then, the run stops.
///
/// In a relation with bit 7 cleared it has to have been set, and in one with packets left out one has to have come before,
/// so that the two runs differ in what is counted.
pub fn count_pair(view: &PairView<'_>, left_out_before: bool, tally: &mut Tally) {
    let [first, second] = view.served;
    assert!(
        first == second && view.written[0] == view.written[1] && view.boards.are_alike(),
        "two boards do not answer alike: {:?}, {:02x?}, {first:x?}, {second:x?}",
        view.relation,
        view.packet
    );
    let bit_7 = view.packet.first().is_some_and(|&first| has_bit_7(first));
    let counts = match view.relation {
        Relation::Editions => true,
        Relation::Cleared => bit_7 || view.packet.is_empty(),
        Relation::LeftOut => left_out_before,
    };
    if counts {
        count_answer(view, tally);
        count_event(view, tally);
    }
}

/// Counts a packet with bit 7 set that the second board was not given. Where anything changed, the run stops.
pub fn count_left_out(packet: &[u8], served: Served, boards: &Boards<'_>, tally: &mut Tally) {
    assert!(
        boards.are_alike() && matches!(served.number, 1..=4),
        "a packet with bit 7 set is not just refused: {packet:02x?}, {served:x?}"
    );
    let code = code_place(packet[0]);
    tally.add(Group::LeftOut, 4 * code + usize::from(served.number) - 1);
}

/// Counts a reset of both boards.
pub fn count_pair_reset(relation: Relation, captured: bool, boards: &Boards<'_>, tally: &mut Tally) {
    assert!(
        boards.are_alike(),
        "two boards are not alike after a reset: {relation:?}"
    );
    let event = if captured {
        PairEvent::ResetForgets
    } else {
        PairEvent::ResetOfNothing
    };
    tally.add(Group::PairEvents, PairEvent::COUNT * relation as usize + event as usize);
}

fn count_answer(view: &PairView<'_>, tally: &mut Tally) {
    let number = view.served[0].number;
    let place = match view.packet.first() {
        Some(&first) => place(&OF_SORTS, code_place(first), answer(number, view.written[0])),
        None => Some(count(&OF_SORTS) + usize::from(number) - 1),
    };
    let place = place.expect("what is answered is what such a packet may be answered");
    tally.add(Group::PairAnswers, PAIR_ANSWERS * view.relation as usize + place);
}

/// Counts a success by what it came to.
fn count_event(view: &PairView<'_>, tally: &mut Tally) {
    if view.served[0].number != 0 || view.written[0][6] != 0 {
        return;
    }
    let code = view.packet[0] & 0x7F;
    let offset = 256 * (usize::from(view.packet[10]) % 16) + 4 * (usize::from(view.packet[11]) / 4);
    let space = usize::from(code & 0x3F == 0x1B);
    let after = [view.boards.ordinary[0], view.boards.trusted[0]];
    let [old, new, mark] = [view.before[space], after[space], view.marks[space]].map(|bytes| word(bytes, offset));
    let mut add_if = |condition, event| {
        let class = PairEvent::COUNT * view.relation as usize + event as usize;
        tally.add_if(condition, Group::PairEvents, class);
    };
    let (capture, then) = (view.capture, view.boards.captures[0]);
    add_if(capture.is_none() && then.is_some(), PairEvent::CaptureFromNothing);
    add_if(capture.is_some() && then != capture, PairEvent::AnotherCapture);
    match space {
        0 => {
            add_if(new != old, PairEvent::OrdinaryChanged);
            add_if(old & !new & mark != 0, PairEvent::OrdinaryCleared);
            let at_a = offset == view.description.a as usize;
            add_if(at_a && code == 0x04, PairEvent::OrdinaryReadAtA);
        }
        _ => {
            add_if(new != old, PairEvent::TrustedChanged);
            add_if(old & !new & mark != 0, PairEvent::TrustedCleared);
            add_if(code == 0x1B, PairEvent::TrustedRead);
        }
    }
}

#[cfg(test)]
mod tests {
    use thawribbon::raw::{Capture, Description, Served};

    use super::{Boards, PairView, Relation, Tally, count_left_out, count_pair, count_pair_reset};

    const SPACE: [u8; 4096] = [0x3C; 4096];
    const OTHER: [u8; 4096] = {
        let mut other = SPACE;
        other[4095] = 0x3D;
        other
    };
    const SERVED: Served = Served {
        length: 12,
        number: 0,
        capture: Capture {
            captured: 0,
            bus: 0,
            device: 0,
        },
    };
    /// A Type 1 read with bit 7, and the reply to it.
    const PACKET: [u8; 12] = [0x85, 0, 0, 1, 1, 0, 7, 0x0F, 5, 0x18, 0, 4];
    const REPLY: [u8; 12] = [0x0A, 0, 0, 0, 0, 0, 0x20, 4, 1, 0, 7, 0];

    const fn boards<'call>() -> Boards<'call> {
        Boards {
            ordinary: [&SPACE, &SPACE],
            trusted: [&SPACE, &SPACE],
            captures: [None, None],
        }
    }

    /// Counts a packet of two boards that are alike but for a change.
    fn counted(change: impl Fn(&mut PairView<'_>)) {
        let mut view = PairView {
            relation: Relation::Cleared,
            description: Description::default(),
            packet: &PACKET,
            served: [SERVED; 2],
            written: [&REPLY, &REPLY],
            before: [&SPACE, &SPACE],
            marks: [&SPACE, &SPACE],
            capture: None,
            boards: boards(),
        };
        change(&mut view);
        count_pair(&view, false, &mut Tally::new());
    }

    #[test]
    fn two_boards_that_are_alike_are_counted() {
        counted(|_| {});
    }

    #[test]
    #[should_panic(expected = "do not answer alike")]
    fn another_number_stops_the_run() {
        counted(|view| view.served[1].number = 4);
    }

    #[test]
    #[should_panic(expected = "do not answer alike")]
    fn another_reply_stops_the_run() {
        counted(|view| view.written[1] = &PACKET);
    }

    #[test]
    #[should_panic(expected = "do not answer alike")]
    fn another_ordinary_byte_stops_the_run() {
        counted(|view| view.boards.ordinary[1] = &OTHER);
    }

    #[test]
    #[should_panic(expected = "do not answer alike")]
    fn another_trusted_byte_stops_the_run() {
        counted(|view| view.boards.trusted[0] = &OTHER);
    }

    #[test]
    #[should_panic(expected = "do not answer alike")]
    fn another_capture_stops_the_run() {
        counted(|view| view.boards.captures[1] = Some((0, 0)));
    }

    #[test]
    #[should_panic(expected = "is not just refused")]
    fn a_packet_that_is_served_cannot_be_left_out() {
        count_left_out(&PACKET, SERVED, &boards(), &mut Tally::new());
    }

    #[test]
    #[should_panic(expected = "not alike after a reset")]
    fn a_reset_of_one_board_stops_the_run() {
        let boards = Boards {
            captures: [None, Some((5, 3))],
            ..boards()
        };
        count_pair_reset(Relation::Editions, true, &boards, &mut Tally::new());
    }
}
