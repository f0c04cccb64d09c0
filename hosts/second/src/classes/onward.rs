//! The classes of a packet that goes through a router and on to a board, after a look that bit 7 came along and that the
//! board's edition, and nothing else, decided on it. Request 9/13: "The router keeps ignoring it."

use thawribbon::raw::{Port, Routed, Served};

use super::answers::{self, Answers, SORTS, answer, place};
use super::departure::Departure;
use super::edition::{code_place, set_place};
use super::group::Group;
use super::tally::Tally;
use crate::generate::Packet;

/// A packet on its way, and what the model made of it.
pub struct OnwardView<'call> {
    pub edition: u32,
    /// The port that the board is behind, and its place in the list.
    pub port: Port,
    pub place: usize,
    pub sent: &'call Packet,
    pub routed: Routed,
    /// What left the router, and came to the board.
    pub left: &'call [u8],
    pub served: Served,
    /// The written bytes of the board's reply.
    pub written: &'call [u8],
    /// The board's spaces and its capture before and after.
    pub ordinary: [&'call [u8]; 2],
    pub trusted: [&'call [u8]; 2],
    pub captures: [Option<(u8, u8)>; 2],
}

/// What a board answers to what leaves a router: with bit 7 under edition 2 it is 4, and else success or UR, of Type 1 UR.
const SETS: [Answers; 4 * SORTS] = {
    let (either, unsupported, refused) = (0b0000_0011, 0b0000_0010, 0b0010_0000);
    let mut sets = [0; 4 * SORTS];
    let mut place = 0;
    while place < 4 * SORTS {
        sets[place] = match (place / SORTS, place % SORTS) {
            (_, 6) => 0,
            (3, _) => refused,
            (_, 2 | 3) => unsupported,
            _ => either,
        };
        place += 1;
    }
    sets
};

/// How many classes there are for what a board answered.
pub const ONWARD_ANSWERS: usize = answers::count(&SETS);

/// Counts a packet. Where the router does not let it through by the right port and with its bit 7, where the board answers
/// what its edition does not let it, or where a refusal changes anything, the run stops.
pub fn count(view: &OnwardView<'_>, tally: &mut Tally) {
    let due = Departure::of(&view.sent.bytes, view.port).bytes(view.sent.as_slice());
    assert_eq!(
        (view.routed.leaves, usize::from(view.routed.port), view.left),
        (1, view.place, &due[..]),
        "a packet does not leave as it should"
    );
    let first = view.left[0];
    let answered = answer(view.served.number, view.written);
    let place = place(&SETS, set_place(view.edition, first), answered);
    let place = place.expect("what is answered is what the edition lets be");
    let changed = differs(view.ordinary) || differs(view.trusted) || view.captures[0] != view.captures[1];
    assert!(view.served.number == 0 || !changed, "a refusal changes something");
    tally.add(Group::OnwardAnswers, place);
    let form = usize::from(first >> 7) | usize::from(view.left[2] >> 6) << 1;
    tally.add(
        Group::OnwardForms,
        48 * (view.edition as usize - 1) + 8 * code_place(first) + form,
    );
}

fn differs([before, after]: [&[u8]; 2]) -> bool {
    before != after
}

#[cfg(test)]
mod tests {
    use thawribbon::raw::{Capture, Port, Routed, Served};

    use super::{ONWARD_ANSWERS, OnwardView, Packet, count};
    use crate::classes::Tally;

    const SPACE: [u8; 8] = [0x3C; 8];
    const OTHER: [u8; 8] = [0x3D; 8];

    /// Counts a Type 1 read with bit 7 that leaves as Type 0, at a board of edition 2, with a change.
    fn counted(change: impl Fn(&mut OnwardView<'_>)) {
        let mut sent = Packet {
            bytes: [0; 24],
            length: 12,
        };
        (sent.bytes[0], sent.bytes[8]) = (0x85, 5);
        let mut left = [0; 12];
        (left[0], left[8]) = (0x84, 5);
        let mut view = OnwardView {
            edition: 2,
            port: Port {
                secondary: 5,
                subordinate: 6,
                tcs: true,
            },
            place: 1,
            sent: &sent,
            routed: Routed {
                length: 12,
                number: 0,
                leaves: 1,
                port: 1,
            },
            left: &left,
            served: Served {
                length: 0,
                number: 4,
                capture: Capture::default(),
            },
            written: &[],
            ordinary: [&SPACE; 2],
            trusted: [&SPACE; 2],
            captures: [None; 2],
        };
        change(&mut view);
        count(&view, &mut Tally::new());
    }

    #[test]
    fn what_edition_2_refuses_is_counted() {
        counted(|_| {});
        assert_eq!(ONWARD_ANSWERS, 36);
    }

    #[test]
    #[should_panic(expected = "what the edition lets be")]
    fn another_answer_stops_the_run() {
        counted(|view| view.served.number = 5);
    }

    #[test]
    #[should_panic(expected = "does not leave as it should")]
    fn bit_7_that_is_lost_stops_the_run() {
        counted(|view| view.left = &[4, 0, 0, 0, 0, 0, 0, 0, 5, 0, 0, 0]);
    }

    #[test]
    #[should_panic(expected = "a refusal changes something")]
    fn a_refusal_that_changes_something_stops_the_run() {
        counted(|view| view.trusted[1] = &OTHER);
    }
}
