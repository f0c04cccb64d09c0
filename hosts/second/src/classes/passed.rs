//! The classes of packets that are sent through a router twice or more, and of circles that are gone through twice or more,
//! after a look that nothing was otherwise than the first time.

use thawribbon::raw::{Parts, Routed};

use super::again::{FORMS, SERVED_PLACES, form, served_place};
use super::ask_names::CIRCLES;
use super::circle::outcome;
use super::edition::code_place;
use super::given::Given;
use super::group::Group;
use super::tally::Tally;
use crate::generate::Packet;

/// A packet that is sent through a router the first time, and what the model made of it.
pub struct PassedView {
    /// The board's edition.
    pub edition: u32,
    pub routed: Routed,
    pub left: Packet,
    /// What the board gave it, if it came to the board.
    pub given: Option<Given>,
}

/// A circle, and what the model made of it.
pub struct CircleAgain {
    pub edition: u32,
    pub kind: u8,
    /// What the completion said.
    pub said: u8,
    /// Whether the first time changed a byte.
    pub changed: bool,
}

/// How many classes there are for what comes to the board: accepted, 4 for bit 7 of the six type codes, and 2.
pub const ARRIVED_PLACES: usize = FORMS * SERVED_PLACES + 7;
/// How many classes there are for circles: each outcome in both editions, and what changed either space.
pub const CIRCLE_PLACES: usize = 2 * CIRCLES.len() + 4;

/// Looks that a packet became the same at the router again. Where it did not, the run stops.
pub fn expect_passed_again(is_same: bool, packet: &[u8]) {
    assert!(is_same, "a packet does not leave a router as before: {packet:02x?}");
}

/// Looks that a circle came to the same again. Where it did not, the run stops.
pub fn expect_circle_again(is_same: bool, parts: &Parts) {
    assert!(is_same, "a circle does not come to the same again: {parts:x?}");
}

/// Counts a packet by what became of it at the router, and by what the board gave it.
pub fn count_passed(view: &PassedView, tally: &mut Tally) {
    let first = view.left.bytes[0];
    match (view.given, view.routed.number, view.routed.leaves) {
        (Some(given), ..) => {
            let accepted = SERVED_PLACES * FORMS;
            let place = match given.number {
                0 => SERVED_PLACES * form(view.edition, first) + served_place(first, &given),
                4 => accepted + code_place(first),
                2 => accepted + 6,
                number => panic!("a board gives {number} to what leaves a router"),
            };
            tally.add(Group::AgainArrived, place);
        }
        (None, 0, 0) => tally.add(Group::AgainRouted, 0),
        (None, 0, _) => {
            let way = code_place(first) / 2;
            tally.add(Group::AgainRouted, 7 + way);
        }
        (None, number, _) => tally.add(Group::AgainRouted, usize::from(number)),
    }
}

/// Counts a packet that is sent again after the router has been given another list of ports, where that makes a difference.
pub fn count_other_list([first, again]: [Routed; 2], tally: &mut Tally) {
    let class = match (first.leaves, again.leaves) {
        (1, 1) if first.port != again.port => 0,
        (1, 0) => 1,
        (0, 1) => 2,
        _ => return,
    };
    tally.add(Group::AgainLists, class);
}

/// Counts a circle.
pub fn count_circle_again(view: &CircleAgain, tally: &mut Tally) {
    let (edition, trusted) = (view.edition as usize - 1, usize::from(view.kind & 0x3F == 0x1B));
    let outcome = outcome(view.kind, view.said == 3);
    tally.add(Group::AgainCircles, CIRCLES.len() * edition + outcome);
    let changes = 2 * CIRCLES.len() + 2 * edition + trusted;
    tally.add_if(view.changed, Group::AgainCircles, changes);
}

#[cfg(test)]
mod tests {
    use thawribbon::raw::Parts;

    use super::{expect_circle_again, expect_passed_again};

    #[test]
    fn the_same_again_is_looked_at() {
        expect_passed_again(true, &[]);
        expect_circle_again(true, &Parts::default());
    }

    #[test]
    #[should_panic(expected = "does not leave a router as before")]
    fn another_verdict_stops_the_run() {
        expect_passed_again(false, &[]);
    }

    #[test]
    #[should_panic(expected = "does not come to the same again")]
    fn another_circle_stops_the_run() {
        expect_circle_again(false, &Parts::default());
    }
}
