//! The classes of packets that are served twice or more, after a look that nothing was otherwise than the first time. Request
//! 12/13: "from the same state, with equal reply sizes and nothing between", "a packet served twice gives the same reply
//! twice and leaves what one leaves".

use thawribbon::raw::Description;

use super::again_names::{AGAIN_EVENTS, AgainEvent};
use super::duo::named;
use super::edition::{code_place, has_bit_7};
use super::given::Given;
use super::group::Group;
use super::tally::Tally;
use crate::generate::Packet;
use crate::twin::word;

/// A packet that is served the first time on a board of one function, and what the model made of it.
pub struct FirstView<'call> {
    pub description: Description,
    pub packet: &'call Packet,
    pub reply_length: usize,
    pub given: Given,
    /// The ordinary and the trusted space before and after, and the marks of both.
    pub before: [&'call [u8]; 2],
    pub after: [&'call [u8]; 2],
    pub marks: [&'call [u8]; 2],
    /// What was captured before and after.
    pub captures: [Option<(u8, u8)>; 2],
}

/// The same of a board of two functions.
pub struct DuoFirstView<'call> {
    pub descriptions: [Description; 2],
    pub packet: &'call Packet,
    pub given: Given,
}

/// How often a packet was served, and what it was given each time.
pub struct Times {
    pub times: usize,
    pub given: Given,
}

/// How many classes there are for the replies of each form, see [`served_place`].
pub const SERVED_PLACES: usize = 10;
/// How many forms there are.
pub const FORMS: usize = 3;
/// How many classes there are for refusals: 1 to 6 in either edition, bit 7 under edition 2, and another edition.
pub const REFUSED_PLACES: usize = 14;

/// Looks that a packet was given the same twice, and that nothing else was otherwise. Where it was, the run stops.
pub fn expect_again([first, again]: [Given; 2], stays: bool, packet: &[u8]) {
    assert!(
        first == again && stays,
        "a packet served again is not given the same, or changes something: {packet:02x?}, {first:02x?}, {again:02x?}"
    );
}

/// The form of a packet that is accepted: edition 1 with bit 7 clear and set, and edition 2.
pub fn form(edition: u32, first: u8) -> usize {
    match edition {
        2 => 2,
        _ => usize::from(has_bit_7(first)),
    }
}

/// The place of what an accepted packet was given: success of the four type codes that can have it, then UR of all six.
pub fn served_place(first: u8, given: &Given) -> usize {
    let code = code_place(first);
    match (given.is_success(), code) {
        (true, 0 | 1) => code,
        (true, 4 | 5) => code - 2,
        (true, _) => panic!("a request of Type 1 succeeds"),
        (false, _) => 4 + code,
    }
}

/// The place of a refusal, by a board's edition.
fn refused_place(edition: u32, packet: &Packet, number: u8) -> usize {
    let bit_7 = packet.length > 0 && has_bit_7(packet.bytes[0]);
    match (edition, number) {
        (2, 4) if bit_7 => 12,
        (1 | 2, _) => 6 * (edition as usize - 1) + usize::from(number) - 1,
        _ => 13,
    }
}

/// Counts a packet that is served the first time on a board of one function.
pub fn count_first(view: &FirstView<'_>, tally: &mut Tally) {
    let (edition, first) = (view.description.edition, view.packet.bytes[0]);
    tally.add(Group::AgainReplies, view.reply_length.min(21));
    if view.given.number != 0 {
        let place = refused_place(edition, view.packet, view.given.number);
        return tally.add(Group::AgainRefused, place);
    }
    let place = SERVED_PLACES * form(edition, first) + served_place(first, &view.given);
    tally.add(Group::AgainServed, place);
    if view.given.is_success() {
        count_events(view, tally);
    }
}

/// Counts a success by what it came to.
fn count_events(view: &FirstView<'_>, tally: &mut Tally) {
    let (code, offset) = (code_place(view.packet.bytes[0]), view.packet.offset());
    let (space, writes) = (code / 4, code % 2 == 1);
    let [old, new, mark] = [view.before[space], view.after[space], view.marks[space]].map(|bytes| word(bytes, offset));
    let at_a = space == 0 && offset == view.description.a as usize;
    let at_b = space == 1 && offset == view.description.b as usize;
    let (changed, cleared) = (new != old, old & !new & mark != 0);
    let [captured, captured_then] = view.captures;
    let another = captured.is_some() && captured != captured_then;
    let events: &[(bool, AgainEvent)] = match (space, writes) {
        (0, false) => &[(!at_a, AgainEvent::OrdinaryRead), (at_a, AgainEvent::OrdinaryReadAtA)],
        (0, true) => &[
            (changed, AgainEvent::OrdinaryChanged),
            (cleared, AgainEvent::OrdinaryCleared),
            (!changed && !at_a, AgainEvent::OrdinaryKept),
            (at_a, AgainEvent::OrdinaryWriteAtA),
            (captured.is_none(), AgainEvent::CaptureFromNothing),
            (another, AgainEvent::AnotherCapture),
            (captured == captured_then, AgainEvent::SameCapture),
        ],
        (_, false) => &[
            (true, AgainEvent::TrustedRead),
            (old & mark != 0, AgainEvent::TrustedReadOfMarkedBits),
        ],
        (_, true) => &[
            (changed, AgainEvent::TrustedChanged),
            (cleared, AgainEvent::TrustedCleared),
            (!changed, AgainEvent::TrustedKept),
            (changed && at_b, AgainEvent::TrustedChangedAtB),
        ],
    };
    count_met(view, events, tally);
    let nothing_enabled = writes && view.packet.bytes[7] == 0;
    count_met(view, &[(nothing_enabled, AgainEvent::NothingEnabled)], tally);
}

/// Counts those of some events that are met, by the edition.
fn count_met(view: &FirstView<'_>, events: &[(bool, AgainEvent)], tally: &mut Tally) {
    let before = AGAIN_EVENTS.len() / 2 * (view.description.edition as usize - 1);
    for &(met, event) in events {
        tally.add_if(met, Group::AgainEvents, before + event as usize);
    }
}

/// Counts a packet that is served the first time on a board of two functions: by whom it is for, then as on one of one.
pub fn count_duo_first(view: &DuoFirstView<'_>, tally: &mut Tally) {
    let (edition, first) = (view.descriptions[0].edition, view.packet.bytes[0]);
    if view.given.number != 0 {
        let place = refused_place(edition, view.packet, view.given.number);
        return tally.add(Group::AgainDuoRefused, place);
    }
    let numbers = view.descriptions.map(|description| description.function);
    let code = code_place(first);
    let whom = match code {
        2 | 3 => 2,
        _ => named(view.packet.bytes[9], numbers),
    };
    // For a function there are four successes and UR of all but its ordinary reads, for neither UR of six codes.
    let place = match (whom, view.given.is_success(), code) {
        (2, ..) => 14 + code,
        (_, true, 0 | 1) => 7 * whom + code,
        (_, true, _) => 7 * whom + code - 2,
        (_, false, 1) => 7 * whom + 4,
        (_, false, _) => 7 * whom + code + 1,
    };
    tally.add(Group::AgainDuoServed, 20 * form(edition, first) + place);
}

/// Counts how often a packet was served.
pub fn count_times(times: &Times, tally: &mut Tally) {
    let given = match (times.given.number, times.given.length) {
        (0, 16) => 0,
        (0, _) if times.given.is_success() => 1,
        (0, _) => 2,
        _ => 3,
    };
    tally.add(Group::AgainTimes, 4 * (times.times.min(5) - 2) + given);
}

#[cfg(test)]
mod tests {
    use super::{Given, Packet, expect_again, form, refused_place, served_place};

    const SUCCESS: [u8; 12] = [0x0A, 0, 0, 0, 5, 0x18, 0, 4, 1, 0, 7, 0];
    const UNSUPPORTED: [u8; 12] = [0x0A, 0, 0, 0, 5, 0x18, 0x20, 4, 1, 0, 7, 0];

    #[test]
    fn every_reply_and_every_refusal_has_its_place() {
        let [success, unsupported] = [SUCCESS, UNSUPPORTED].map(|reply| Given::new(0, &reply));
        let successes = [0x04, 0xC4, 0x1B, 0xDB].map(|first| served_place(first, &success));
        let others = [0x84, 0x44, 0x05, 0x45, 0x1B, 0x5B].map(|first| served_place(first, &unsupported));
        assert!(successes.into_iter().chain(others).eq(0..10));
        assert_eq!(
            [(1, 0x44), (1, 0xC4), (2, 0x44)].map(|(edition, first)| form(edition, first)),
            [0, 1, 2]
        );
        let packet = |first| Packet {
            bytes: [first; 24],
            length: 12,
        };
        let places = (1..=2).flat_map(|edition| (1..=6).map(move |number| refused_place(edition, &packet(0), number)));
        assert!(places.eq(0..12));
        assert_eq!(refused_place(2, &packet(0x84), 4), 12);
        assert_eq!(refused_place(3, &packet(0x84), 1), 13);
    }

    #[test]
    fn the_same_again_is_looked_at() {
        expect_again([Given::new(0, &SUCCESS); 2], true, &[]);
    }

    #[test]
    #[should_panic(expected = "not given the same")]
    fn another_reply_stops_the_run() {
        expect_again([Given::new(0, &SUCCESS), Given::new(0, &UNSUPPORTED)], true, &[]);
    }

    #[test]
    #[should_panic(expected = "not given the same")]
    fn another_number_stops_the_run() {
        expect_again([Given::new(3, &[]), Given::new(4, &[])], true, &[]);
    }

    #[test]
    #[should_panic(expected = "changes something")]
    fn a_repeat_that_changes_something_stops_the_run() {
        expect_again([Given::new(0, &SUCCESS); 2], false, &[]);
    }
}
