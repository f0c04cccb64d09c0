//! The classes of two writes that are swapped, after a look that both orders, and the one write, left the same. Request 12/13:
//! "two successful writes of the same type, bus, device, function, offset and data, with different enables, may be swapped,
//! and leave what one write with both sets of enables leaves."

use thawribbon::raw::Description;

use super::access::enabled;
use super::edition::has_bit_7;
use super::given::Given;
use super::group::Group;
use super::swapped_names::{NOT_SWAPPED, NotSwapped, SWAP_EVENTS, SwapEvent};
use super::tally::Tally;
use crate::generate::{Packet, Side, Snapshot, Swap};
use crate::twin::word;

/// Two writes, and what both and the one came to for the function that they are for.
pub struct SwapView<'call> {
    pub description: Description,
    /// How many functions the board has, and which of them it is.
    pub functions: usize,
    pub side: usize,
    /// Whether the packets came through a router.
    pub is_routed: bool,
    pub swap: &'call Swap,
    /// The marks of the ordinary and of the trusted space.
    pub marks: [&'call [u8]; 2],
    pub start: &'call Side,
    pub left: &'call Side,
}

/// Two writes in both orders, with something that the request does not have.
pub struct OrdersView<'call> {
    pub description: Description,
    pub swap: &'call Swap,
    pub leaves_the_same: bool,
    /// Whether anything is changed in the first order.
    pub changes: bool,
}

/// How two sets of enables may be to one another.
pub const RELATIONS: usize = 9;
/// Where a write may be: an ordinary word, at A, a trusted word, at B.
pub const PLACES: usize = 4;

/// What may become of a word, in the ordinary space and in the trusted one.
const LEFT: [[SwapEvent; 6]; 2] = [
    [
        SwapEvent::OrdinaryChangedByEach,
        SwapEvent::OrdinaryChangedByBoth,
        SwapEvent::OrdinaryClearedByEach,
        SwapEvent::OrdinaryClearedByBoth,
        SwapEvent::OrdinaryMarkedBitKept,
        SwapEvent::OrdinaryKept,
    ],
    [
        SwapEvent::TrustedChangedByEach,
        SwapEvent::TrustedChangedByBoth,
        SwapEvent::TrustedClearedByEach,
        SwapEvent::TrustedClearedByBoth,
        SwapEvent::TrustedMarkedBitKept,
        SwapEvent::TrustedKept,
    ],
];

/// Looks that each of the two writes was given the same success in either order, that the one write was given what the first
/// was but for its own requester and tag, and that all three ways left the same. Where it is otherwise, the run stops.
pub fn expect_swapped(swap: &Swap, given: [[Given; 2]; 2], both: Given, left: [&Snapshot; 3]) {
    let [[first, second], [first_behind, second_before]] = given;
    let answers = first == first_behind && second == second_before && first.is_success() && second.is_success();
    let one = both == first.for_requester_of(&swap.both.bytes);
    assert!(
        answers && one,
        "two writes are not answered the same in either order, or as the one: {given:02x?}, {both:02x?}"
    );
    assert!(
        left[0] == left[1] && left[0] == left[2],
        "two writes do not leave the same in either order, or not what the one leaves: {:02x?}, {:02x?}",
        swap.first.as_slice(),
        swap.second.as_slice()
    );
}

/// The place of the word that a write is about.
fn place(packet: &Packet, description: &Description) -> usize {
    let (trusted, offset) = (is_trusted(packet), packet.offset());
    let there = if trusted { description.b } else { description.a };
    2 * usize::from(trusted) + usize::from(offset == there as usize)
}

const fn is_trusted(packet: &Packet) -> bool {
    packet.bytes[0] & 0x3F == 0x1B
}

/// How two sets of enables are to one another.
const fn relation(first: u8, second: u8) -> usize {
    let (both, either) = (first & second, first | second);
    match (first, second) {
        (0, 0) => 0,
        (0, _) | (_, 0) => 1,
        _ if first == second => 2,
        _ if both == 0 && either == 15 => 3,
        _ if both == 0 => 4,
        (15, _) | (_, 15) => 5,
        _ if either == first || either == second => 6,
        _ if either == 15 => 7,
        _ => 8,
    }
}

/// Counts two writes that were swapped.
pub fn count_swap(view: &SwapView<'_>, tally: &mut Tally) {
    let [first, second] = [view.swap.first.bytes[7], view.swap.second.bytes[7]];
    let (place, edition) = (
        place(&view.swap.first, &view.description),
        view.description.edition as usize - 1,
    );
    if place != 1 {
        let class = 256 * (place / 2) + 16 * usize::from(first) + usize::from(second);
        tally.add(Group::SwapEnables, class);
    }
    let relation = relation(first, second);
    tally.add(Group::SwapPlaces, RELATIONS * (PLACES * edition + place) + relation);
    if view.functions == 2 {
        tally.add(Group::SwapDuo, PLACES * (2 * view.side + edition) + place);
    }
    if view.is_routed {
        tally.add(Group::SwapRouted, PLACES * edition + place);
    }
    if edition == 0 {
        let [first, second] = [&view.swap.first, &view.swap.second].map(|packet| has_bit_7(packet.bytes[0]));
        tally.add(
            Group::SwapBit7,
            4 * place + 2 * usize::from(first) + usize::from(second),
        );
    }
    count_packets(view, tally);
    count_left(view, place, tally);
}

/// Counts an event of an edition.
fn add_if(condition: bool, event: SwapEvent, edition: u32, tally: &mut Tally) {
    let class = SWAP_EVENTS.len() / 2 * (edition as usize - 1) + event as usize;
    tally.add_if(condition, Group::SwapEvents, class);
}

/// Counts what is free in the three packets, and what they captured.
fn count_packets(view: &SwapView<'_>, tally: &mut Tally) {
    let [first, second, both] = [&view.swap.first, &view.swap.second, &view.swap.both].map(|packet| &packet.bytes);
    let mut add_if = |condition, event| add_if(condition, event, view.description.edition, tally);
    add_if((first[2] ^ second[2]) & 0x80 != 0, SwapEvent::OneDigest);
    add_if(first[4..7] == second[4..7], SwapEvent::SameRequester);
    add_if(first[4..7] != second[4..7], SwapEvent::OtherRequester);
    add_if(first[4..7] == both[4..7], SwapEvent::OneIsTheFirst);
    add_if(first[4..7] != both[4..7], SwapEvent::OneIsAnother);
    if !is_trusted(&view.swap.first) {
        let [before, after] = [view.start.capture, view.left.capture];
        add_if(before.is_none(), SwapEvent::CaptureFromNothing);
        add_if(before.is_some() && before != after, SwapEvent::AnotherCapture);
        add_if(before == after, SwapEvent::SameCapture);
    }
}

/// Counts what became of the word.
fn count_left(view: &SwapView<'_>, place: usize, tally: &mut Tally) {
    let (space, offset) = (place / 2, view.swap.first.offset());
    let [old, new] = [view.start, view.left].map(|side| word(&side.spaces[space], offset));
    let mark = word(view.marks[space], offset);
    let [first, second] = [&view.swap.first, &view.swap.second].map(|packet| enabled(packet.bytes[7]));
    let (changed, cleared) = (old ^ new, old & !new & mark);
    let by_each = |bits: u32| bits & first & !second != 0 && bits & second & !first != 0;
    let by_both = |bits: u32| bits & first & second != 0;
    let met = [
        by_each(changed),
        by_both(changed),
        by_each(cleared),
        by_both(cleared),
        new & mark != 0,
        changed == 0,
    ];
    let mut add_if = |condition, event| add_if(condition, event, view.description.edition, tally);
    if place == 1 {
        let data = word(&view.swap.first.bytes, 12);
        return add_if(old & mark & data & (first | second) != 0, SwapEvent::AtAOverMarkedBits);
    }
    add_if(place == 3 && changed != 0, SwapEvent::AtBChanged);
    for (event, met) in LEFT[space].into_iter().zip(met) {
        add_if(met, event);
    }
}

/// Counts what does not hold, or holds although the request does not say it.
fn add_not(event: NotSwapped, edition: u32, tally: &mut Tally) {
    let class = NOT_SWAPPED.len() / 2 * (edition as usize - 1) + event as usize;
    tally.add(Group::NotSwapped, class);
}

/// Counts two writes with a read of the word between: it may be given other data in the one order than in the other. What is
/// left has to be the same all the same.
pub fn count_read_between(view: &OrdersView<'_>, reads: [Given; 2], read: &Packet, tally: &mut Tally) {
    assert!(
        view.leaves_the_same,
        "a read between two writes changes what they leave"
    );
    assert!(
        reads.iter().all(Given::is_success),
        "a read of a word that may be written is refused"
    );
    let (place, edition) = (place(&view.swap.first, &view.description), view.description.edition);
    let differs = reads[0].data() != reads[1].data();
    let event = match (place, is_trusted(read), differs) {
        (0, _, true) => NotSwapped::OrdinaryRead,
        (1, _, false) => NotSwapped::ReadAtAOfNothing,
        (1, _, true) => panic!("an ordinary write at A shows"),
        (_, true, true) => NotSwapped::TrustedRead,
        (_, false, true) => NotSwapped::ReadAtAOfTheRegister,
        _ => return,
    };
    add_not(event, edition, tally);
}

/// Counts two writes of different data: another word may be left, but not at A, and not where no byte is enabled in both.
pub fn count_other_data(view: &OrdersView<'_>, given: [[Given; 2]; 2], tally: &mut Tally) {
    let [[first, second], [first_behind, second_before]] = given;
    assert!(
        first == first_behind && second == second_before,
        "two writes of different data are not answered the same in either order"
    );
    let place = place(&view.swap.first, &view.description);
    let apart = view.swap.first.bytes[7] & view.swap.second.bytes[7] == 0;
    assert!(
        view.leaves_the_same || (!apart && place != 1),
        "two writes to different bytes, or at A, do not leave the same in either order"
    );
    let event = match (place, view.leaves_the_same) {
        (0, false) => NotSwapped::OrdinaryData,
        (_, false) => NotSwapped::TrustedData,
        (1, true) => NotSwapped::DataAtA,
        (0, true) if apart && view.changes => NotSwapped::OrdinaryDataApart,
        (2 | 3, true) if apart && view.changes => NotSwapped::TrustedDataApart,
        _ => return,
    };
    add_not(event, view.description.edition, tally);
}

#[cfg(test)]
mod tests {
    use thawribbon::raw::Description;

    use super::{
        Given, OrdersView, Packet, RELATIONS, Side, Snapshot, Swap, Tally, count_other_data, count_read_between,
        expect_swapped, relation,
    };

    const REPLY: [u8; 12] = [0x0A, 0, 0, 0, 5, 0x18, 0, 4, 1, 0, 7, 0];
    const UNSUPPORTED: [u8; 12] = [0x0A, 0, 0, 0, 5, 0x18, 0x20, 4, 1, 0, 7, 0];

    /// Ordinary writes of the word at 000h with some enables, and the tag of the reply above.
    fn swap(first: u8, second: u8) -> Swap {
        let [first, second, both] = [first, second, first | second].map(|enables| {
            let mut bytes = [0; 24];
            (bytes[0], bytes[4], bytes[6], bytes[7]) = (0x44, 1, 7, enables);
            Packet { bytes, length: 16 }
        });
        Swap { first, second, both }
    }

    fn snapshot(byte: u8) -> Snapshot {
        let side = Side {
            spaces: [vec![byte; 4], vec![0; 4]],
            capture: Some((5, 3)),
        };
        Snapshot { sides: vec![side] }
    }

    fn view(swap: &Swap, leaves_the_same: bool) -> OrdersView<'_> {
        OrdersView {
            description: Description {
                function: 0,
                a: 0x104,
                b: 0x00C,
                edition: 1,
            },
            swap,
            leaves_the_same,
            changes: true,
        }
    }

    #[test]
    fn any_two_sets_of_enables_have_a_relation_either_way() {
        let mut met = [0; RELATIONS];
        for first in 0..16 {
            for second in 0..16 {
                assert_eq!(relation(first, second), relation(second, first));
                met[relation(first, second)] += 1;
            }
        }
        assert_eq!(met, [1, 30, 15, 14, 36, 28, 72, 36, 24]);
    }

    #[test]
    fn what_is_the_same_is_looked_at() {
        let (given, left) = (Given::new(0, &REPLY), snapshot(1));
        expect_swapped(&swap(1, 2), [[given; 2]; 2], given, [&left; 3]);
    }

    #[test]
    #[should_panic(expected = "not answered the same")]
    fn another_answer_in_the_other_order_stops_the_run() {
        let (given, left) = (Given::new(0, &REPLY), snapshot(1));
        let other = given.for_requester_of(&[9; 7]);
        expect_swapped(&swap(1, 2), [[given; 2], [given, other]], given, [&left; 3]);
    }

    #[test]
    #[should_panic(expected = "not answered the same")]
    fn writes_that_do_not_succeed_stop_the_run() {
        let (given, left) = (Given::new(0, &UNSUPPORTED), snapshot(1));
        expect_swapped(&swap(1, 2), [[given; 2]; 2], given, [&left; 3]);
    }

    #[test]
    #[should_panic(expected = "or as the one")]
    fn another_answer_to_the_one_write_stops_the_run() {
        let (given, left) = (Given::new(0, &REPLY), snapshot(1));
        expect_swapped(&swap(1, 2), [[given; 2]; 2], Given::new(0, &UNSUPPORTED), [&left; 3]);
    }

    #[test]
    #[should_panic(expected = "do not leave the same")]
    fn another_byte_in_the_other_order_stops_the_run() {
        let (given, left, other) = (Given::new(0, &REPLY), snapshot(1), snapshot(2));
        expect_swapped(&swap(1, 2), [[given; 2]; 2], given, [&left, &other, &left]);
    }

    #[test]
    #[should_panic(expected = "not what the one leaves")]
    fn another_byte_of_the_one_write_stops_the_run() {
        let (given, left, other) = (Given::new(0, &REPLY), snapshot(1), snapshot(2));
        expect_swapped(&swap(1, 2), [[given; 2]; 2], given, [&left, &left, &other]);
    }

    #[test]
    #[should_panic(expected = "changes what they leave")]
    fn a_read_between_that_changes_what_is_left_stops_the_run() {
        let (swap, given) = (swap(1, 2), Given::new(0, &REPLY));
        count_read_between(&view(&swap, false), [given; 2], &swap.first, &mut Tally::new());
    }

    #[test]
    fn other_data_may_leave_another_word() {
        let (swap, given) = (swap(3, 2), Given::new(0, &REPLY));
        count_other_data(&view(&swap, false), [[given; 2]; 2], &mut Tally::new());
    }

    #[test]
    #[should_panic(expected = "to different bytes")]
    fn other_data_in_different_bytes_have_to_leave_the_same() {
        let (swap, given) = (swap(1, 2), Given::new(0, &REPLY));
        count_other_data(&view(&swap, false), [[given; 2]; 2], &mut Tally::new());
    }
}
