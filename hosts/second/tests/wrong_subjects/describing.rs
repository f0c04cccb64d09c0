//! Wrong ways to judge the description of two functions. By request 11/13 they have different numbers and one edition, and
//! both are well described, whomever the packet is for.

use second::compare::{DuoCall, DuoServed, Reference, ServeCall, SideCall, Subject};
use thawribbon::raw::{Capture, Description};

use crate::coupler::{
    ALTERNATE, PRIMARY, SIDES, again, by_two_boards, declined, expect_caught_accepting, expect_caught_refusing,
    is_trusted, named, refused, refusing, rehearsed, served_anyway,
};
use crate::harness::{Wrong, expect_two_caught, expect_two_not_caught};
use crate::reviser::has_bit_7;

#[test]
fn the_form_of_these_with_nothing_wrong_is_not_caught() {
    expect_two_not_caught(refusing(&[1, 2, 3, 4, 5, 6], |_, _| None));
    expect_two_not_caught(refusing(&[1, 2, 3, 4, 5, 6], |call, number| {
        Some(refused(call, number))
    }));
}

/// What each function would be answered with alone: 1 where either is, else what both are.
#[test]
fn numbers_told_by_two_boards_of_one_function_are_not_caught() {
    expect_two_not_caught(Wrong::duo(|mut call| {
        let numbers = SIDES.map(|side| number_alone(&call, side));
        let equal = call.sides[PRIMARY].function == call.sides[ALTERNATE].function;
        match numbers {
            _ if equal || numbers.contains(&1) => refused(&call, 1),
            [0, _] => by_two_boards(&mut call),
            [number, _] => refused(&call, number),
        }
    }));
}

/// The number that a function would get alone, while no byte that is lent changes.
fn number_alone(call: &DuoCall<'_>, side: usize) -> u8 {
    let own = &call.sides[side];
    let [mut ordinary, mut trusted, mut reply] = [&*own.ordinary, &*own.trusted, &*call.reply].map(<[u8]>::to_vec);
    let description = Description {
        function: own.function,
        a: own.a,
        b: own.b,
        edition: call.edition,
    };
    let alone = ServeCall {
        description,
        kept: own.kept,
        ordinary: &mut ordinary,
        ordinary_rules: own.ordinary_rules,
        ordinary_marks: own.ordinary_marks,
        trusted: &mut trusted,
        trusted_rules: own.trusted_rules,
        trusted_marks: own.trusted_marks,
        packet: call.packet,
        reply: &mut reply,
    };
    Reference.serve(alone).number
}

/// Whether equal numbers are the only fault of the description.
fn has_equal_numbers_only(call: &mut DuoCall<'_>) -> bool {
    let [primary, alternate] = call.sides.each_ref().map(|side| side.function);
    if primary != alternate || primary > 7 {
        return false;
    }
    let mut other = again(call);
    other.sides[ALTERNATE].function = (alternate + 1) % 8;
    rehearsed(&mut other).0.number != 1
}

/// Fails unless a board is caught that answers in another way where the numbers are equal, and nothing else is at fault
/// with the description.
fn expect_equal_caught(other: impl Fn(&mut DuoCall<'_>) -> Option<DuoServed> + 'static) {
    expect_caught_refusing(&[1], move |call, _| {
        if has_equal_numbers_only(call) {
            other(call)
        } else {
            None
        }
    });
}

/// Serves where one of two functions with equal numbers has another one: it is asked for only by that.
fn served_with_another(call: &mut DuoCall<'_>, side: usize) -> DuoServed {
    let mut call = again(call);
    let number = call.sides[side].function;
    call.sides[side].function = (number + 1) % 8;
    Reference.serve_pair(call)
}

#[test]
fn equal_numbers_are_served() {
    expect_equal_caught(|call| Some(served_with_another(call, ALTERNATE)));
    expect_equal_caught(|call| Some(served_with_another(call, PRIMARY)));
}

#[test]
fn equal_numbers_are_refused_only_where_the_packet_names_them() {
    expect_equal_caught(|call| named(call).is_none().then(|| served_with_another(call, ALTERNATE)));
    expect_equal_caught(|call| named(call).is_some().then(|| served_with_another(call, ALTERNATE)));
}

#[test]
fn equal_numbers_are_refused_only_for_some_packets() {
    expect_equal_caught(|call| {
        let trusted = call.packet.len() >= 12 && is_trusted(call);
        trusted.then(|| served_with_another(call, ALTERNATE))
    });
    expect_equal_caught(|call| {
        let trusted = call.packet.len() >= 12 && is_trusted(call);
        (!trusted).then(|| served_with_another(call, ALTERNATE))
    });
    expect_equal_caught(|call| (call.packet.len() < 12).then(|| served_with_another(call, ALTERNATE)));
}

#[test]
fn one_equal_number_is_served() {
    for number in 0..8 {
        expect_equal_caught(move |call| {
            (call.sides[PRIMARY].function == number).then(|| served_with_another(call, ALTERNATE))
        });
    }
}

#[test]
fn equal_numbers_get_another_number() {
    for number in [0, 2, 3, 4, 6, 8, 10] {
        expect_equal_caught(move |call| Some(refused(call, number)));
    }
}

#[test]
fn equal_numbers_are_tested_after_another_number() {
    for number in 2..=6 {
        expect_equal_caught(move |call| {
            let mut other = again(call);
            other.sides[ALTERNATE].function = (other.sides[ALTERNATE].function + 1) % 8;
            let later = rehearsed(&mut other).0.number;
            (later == number).then(|| refused(call, number))
        });
    }
}

#[test]
fn equal_numbers_get_unsupported_request() {
    expect_equal_caught(|call| {
        let would_be_served = served_number(call) == 0;
        would_be_served.then(|| declined(call, PRIMARY))
    });
}

/// The number that a call with equal numbers would get with different ones.
fn served_number(call: &mut DuoCall<'_>) -> u8 {
    let mut other = again(call);
    other.sides[ALTERNATE].function = (other.sides[ALTERNATE].function + 1) % 8;
    rehearsed(&mut other).0.number
}

#[test]
fn equal_numbers_are_served_by_one_of_them() {
    for side in SIDES {
        expect_equal_caught(move |call| {
            (served_number(call) == 0 && named(call).is_some()).then(|| served_anyway(call, side))
        });
    }
}

#[test]
fn numbers_that_are_alike_in_some_bits_are_refused() {
    for mask in [1, 2, 4, 3, 5, 6] {
        expect_caught_accepting(move |call| {
            let [primary, alternate] = call.sides.each_ref().map(|side| side.function & mask);
            (primary == alternate).then(|| refused(call, 1))
        });
    }
}

#[test]
fn other_things_that_are_alike_are_refused() {
    expect_caught_accepting(|call| (call.sides[0].a == call.sides[1].a).then(|| refused(call, 1)));
    expect_caught_accepting(|call| (call.sides[0].b == call.sides[1].b).then(|| refused(call, 1)));
    expect_caught_accepting(|call| {
        let both = call.sides.iter().all(|side| side.kept.captured != 0);
        let alike =
            (call.sides[0].kept.bus, call.sides[0].kept.device) == (call.sides[1].kept.bus, call.sides[1].kept.device);
        (both && alike).then(|| refused(call, 1))
    });
}

#[test]
fn captures_that_differ_are_refused() {
    for bus in [true, false] {
        expect_caught_accepting(move |call| {
            let [first, second] = call.sides.each_ref().map(|side| side.kept);
            let both = first.captured != 0 && second.captured != 0;
            let unlike = if bus {
                first.bus != second.bus
            } else {
                first.device != second.device
            };
            (both && unlike).then(|| refused(call, 1))
        });
    }
}

#[test]
fn an_order_of_the_numbers_is_wanted() {
    expect_caught_accepting(|call| (call.sides[0].function > call.sides[1].function).then(|| refused(call, 1)));
    expect_caught_accepting(|call| (call.sides[0].function < call.sides[1].function).then(|| refused(call, 1)));
    expect_caught_accepting(|call| (call.sides[0].function != 0).then(|| refused(call, 1)));
}

/// What a function has right in the place of what is wrong with it.
struct Repaired {
    buffers: [Vec<u8>; 6],
}

/// A cause of 1 of one function: how it is told, and how it is put right.
#[derive(Clone, Copy)]
enum Cause {
    /// A number over 7.
    Function,
    A,
    B,
    Device,
    /// The length of one of the six buffers.
    Length(usize),
    /// Bits of the ordinary or of the trusted space that are marked doubly.
    Doubled(bool),
}

const CAUSES: [Cause; 12] = [
    Cause::Function,
    Cause::A,
    Cause::B,
    Cause::Device,
    Cause::Length(0),
    Cause::Length(1),
    Cause::Length(2),
    Cause::Length(3),
    Cause::Length(4),
    Cause::Length(5),
    Cause::Doubled(false),
    Cause::Doubled(true),
];

impl Repaired {
    /// Copies of a function's buffers, with one of them put right.
    fn of(side: &SideCall<'_>, cause: Cause) -> Self {
        let mut buffers = [
            &*side.ordinary,
            side.ordinary_rules,
            side.ordinary_marks,
            &*side.trusted,
            side.trusted_rules,
            side.trusted_marks,
        ]
        .map(<[u8]>::to_vec);
        match cause {
            Cause::Length(place) => {
                buffers[place].resize(4096, 0);
                if place % 3 != 0 {
                    buffers[place].fill(0);
                }
            }
            Cause::Doubled(trusted) => buffers[if trusted { 5 } else { 2 }].fill(0),
            _ => {}
        }
        Self { buffers }
    }

    /// Has a packet served where one of the functions is put right.
    fn serve(mut self, call: &mut DuoCall<'_>, side: usize, cause: Cause) -> DuoServed {
        let mut call = again(call);
        let others = call.sides[1 - side].function;
        let own = &mut call.sides[side];
        let [
            ordinary,
            ordinary_rules,
            ordinary_marks,
            trusted,
            trusted_rules,
            trusted_marks,
        ] = &mut self.buffers;
        match cause {
            Cause::Function if own.function > 7 => {
                own.function %= 8;
                if own.function == others {
                    own.function = (others + 1) % 8;
                }
            }
            Cause::A => own.a = 0x104,
            Cause::B => own.b = 0x00C,
            Cause::Device => own.kept.device &= 31,
            Cause::Length(_) | Cause::Doubled(_) => {
                (own.ordinary, own.ordinary_rules, own.ordinary_marks) = (ordinary, ordinary_rules, ordinary_marks);
                (own.trusted, own.trusted_rules, own.trusted_marks) = (trusted, trusted_rules, trusted_marks);
            }
            Cause::Function => {}
        }
        Reference.serve_pair(call)
    }
}

/// Fails unless a board is caught that does not look for a cause of one function, in calls of which a condition holds.
fn expect_unseen_caught(side: usize, cause: Cause, is_such: impl Fn(&DuoCall<'_>) -> bool + 'static) {
    expect_caught_refusing(&[1], move |call, _| {
        is_such(call).then(|| Repaired::of(&call.sides[side], cause).serve(call, side, cause))
    });
}

#[test]
fn one_cause_of_one_function_is_not_looked_for() {
    for (side, cause) in SIDES.into_iter().flat_map(|side| CAUSES.map(|cause| (side, cause))) {
        expect_unseen_caught(side, cause, |_| true);
    }
}

#[test]
fn one_cause_of_one_function_is_looked_for_only_where_it_is_named() {
    for (side, cause) in SIDES.into_iter().flat_map(|side| CAUSES.map(|cause| (side, cause))) {
        expect_unseen_caught(side, cause, move |call| {
            let number = call.sides[side].function % 8;
            call.packet.get(9).is_none_or(|ninth| ninth & 7 != number)
        });
    }
}

#[test]
fn one_cause_of_one_function_is_looked_for_only_where_the_other_is_named() {
    for (side, cause) in SIDES.into_iter().flat_map(|side| CAUSES.map(|cause| (side, cause))) {
        expect_unseen_caught(side, cause, move |call| {
            let others = call.sides[1 - side].function % 8;
            call.packet.get(9).is_none_or(|ninth| ninth & 7 != others)
        });
    }
}

#[test]
fn a_buffer_of_one_function_may_be_shorter_or_longer() {
    for (side, longer) in SIDES.into_iter().flat_map(|side| [(side, true), (side, false)]) {
        for place in 0..6 {
            expect_unseen_caught(side, Cause::Length(place), move |call| {
                let own = &call.sides[side];
                let lengths = [
                    own.ordinary.len(),
                    own.ordinary_rules.len(),
                    own.ordinary_marks.len(),
                    own.trusted.len(),
                    own.trusted_rules.len(),
                    own.trusted_marks.len(),
                ];
                (lengths[place] > 4096) == longer
            });
        }
    }
}

/// Whether a function by itself is well described, and a call without another fault would be served.
fn is_well_described(call: &DuoCall<'_>, side: usize) -> bool {
    let own = &call.sides[side];
    let word = |offset: u32, lowest: u32| offset % 4 == 0 && (lowest..=0xFFC).contains(&offset);
    let buffers = [
        &*own.ordinary,
        own.ordinary_rules,
        own.ordinary_marks,
        &*own.trusted,
        own.trusted_rules,
        own.trusted_marks,
    ];
    let doubled = |rules: &[u8], marks: &[u8]| rules.iter().zip(marks).any(|(rule, mark)| rule & mark != 0);
    own.function < 8
        && word(own.a, 0x104)
        && word(own.b, 0x00C)
        && (own.kept.captured == 0 || own.kept.device < 32)
        && buffers.iter().all(|buffer| buffer.len() == 4096)
        && !doubled(own.ordinary_rules, own.ordinary_marks)
        && !doubled(own.trusted_rules, own.trusted_marks)
}

/// What a function by itself would be answered with, where it is the only one that is looked at.
fn looked_at_alone(call: &mut DuoCall<'_>, side: usize) -> Option<DuoServed> {
    let edition = matches!(call.edition, 1 | 2);
    (edition && is_well_described(call, side) && call.reply.len() >= 16 && call.packet.len() >= 12)
        .then(|| declined(call, side))
}

#[test]
fn only_one_functions_description_is_looked_at() {
    for side in SIDES {
        expect_caught_refusing(&[1], move |call, _| looked_at_alone(call, side));
    }
}

#[test]
fn only_the_description_of_the_function_that_is_named_is_looked_at() {
    expect_caught_refusing(&[1], |call, _| {
        let side = named(call)?;
        looked_at_alone(call, side)
    });
    expect_caught_refusing(&[1], |call, _| {
        let side = named(call)?;
        looked_at_alone(call, 1 - side)
    });
}

#[test]
fn no_description_is_looked_at_for_packets_for_neither() {
    for side in SIDES {
        expect_caught_refusing(&[1], move |call, _| {
            if named(call).is_none() {
                looked_at_alone(call, side)
            } else {
                None
            }
        });
    }
}

#[test]
fn only_both_functions_together_are_badly_described() {
    expect_caught_refusing(&[1], |call, _| {
        let well = SIDES.map(|side| is_well_described(call, side));
        let side = well.iter().position(|&well| well)?;
        looked_at_alone(call, side)
    });
}

#[test]
fn one_functions_description_is_tested_after_another_number() {
    for (side, numbers) in SIDES
        .into_iter()
        .flat_map(|side| [2, 3, 4, 5, 6].map(|number| (side, number)))
    {
        expect_caught_refusing(&[1], move |call, _| {
            let (bad, good) = (!is_well_described(call, side), is_well_described(call, 1 - side));
            let later = later_number(call);
            (bad && good && matches!(call.edition, 1 | 2) && later == numbers).then(|| refused(call, numbers))
        });
    }
}

/// The number that a call would get for its reply and its packet, on a board that is well described.
fn later_number(call: &DuoCall<'_>) -> u8 {
    let (mut spaces, rules, mut reply) = ([[0; 4096]; 4], [0; 4096], call.reply.to_vec());
    let [first, second, third, fourth] = &mut spaces;
    let sides = [(0, first, second), (1, third, fourth)].map(|(function, ordinary, trusted)| SideCall {
        function,
        a: 0x104,
        b: 0x00C,
        kept: Capture::default(),
        ordinary,
        ordinary_rules: &rules,
        ordinary_marks: &rules,
        trusted,
        trusted_rules: &rules,
        trusted_marks: &rules,
    });
    let (edition, packet) = (call.edition, call.packet);
    let reply = &mut reply;
    Reference
        .serve_pair(DuoCall {
            edition,
            sides,
            packet,
            reply,
        })
        .number
}

#[test]
fn the_edition_is_ignored_for_one_function() {
    for side in SIDES {
        expect_caught_refusing(&[4], move |call, _| {
            let at_stake = call.edition == 2 && has_bit_7(call.packet) && named(call) == Some(side);
            at_stake.then(|| served_by(call, 1))
        });
        expect_caught_accepting(move |call| {
            let at_stake = call.edition == 1 && has_bit_7(call.packet) && named(call) == Some(side);
            at_stake.then(|| refused(call, 4))
        });
    }
}

/// Has a packet served by another edition.
fn served_by(call: &mut DuoCall<'_>, edition: u32) -> DuoServed {
    let mut call = again(call);
    call.edition = edition;
    Reference.serve_pair(call)
}

#[test]
fn the_edition_is_ignored_for_packets_for_neither() {
    expect_caught_refusing(&[4], |call, _| {
        let at_stake = call.edition == 2 && has_bit_7(call.packet) && named(call).is_none();
        at_stake.then(|| served_by(call, 1))
    });
    expect_caught_accepting(|call| {
        let at_stake = call.edition == 1 && has_bit_7(call.packet) && named(call).is_none();
        at_stake.then(|| refused(call, 4))
    });
}

#[test]
fn another_edition_is_refused_only_for_some_packets() {
    for wrong in [Some(PRIMARY), Some(ALTERNATE), None] {
        for taken in [1, 2] {
            expect_caught_refusing(&[1], move |call, _| {
                let at_stake = !matches!(call.edition, 1 | 2) && named(call) == wrong;
                at_stake.then(|| served_by(call, taken))
            });
        }
    }
}

#[test]
fn the_editions_are_taken_for_each_other() {
    expect_caught_accepting(|call| Some(served_by(call, 3 - call.edition)));
}

#[test]
fn something_changes_with_a_refusal() {
    for numbers in [&[1][..], &[2], &[3], &[4], &[5], &[6]] {
        expect_caught_refusing(numbers, |call, _| {
            call.reply.fill(0);
            None
        });
        expect_caught_refusing(numbers, |call, number| {
            Some(DuoServed {
                length: 12,
                ..refused(call, number)
            })
        });
        for side in SIDES {
            expect_caught_refusing(numbers, move |call, _| {
                call.sides[side].ordinary.fill(0);
                None
            });
            expect_caught_refusing(numbers, move |call, _| {
                call.sides[side].trusted.fill(0);
                None
            });
        }
    }
}

#[test]
fn a_number_is_answered_for_another() {
    for number in 1..=6 {
        let subject = refusing(&[1, 2, 3, 4, 5, 6], move |call, due| {
            (due == number).then(|| refused(call, 7 - number))
        });
        expect_two_caught(subject, "serve_pair");
    }
}
