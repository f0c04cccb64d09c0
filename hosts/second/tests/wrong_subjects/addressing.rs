//! Wrong ways to find whom a packet is for, and to answer one that is for neither. By request 11/13 "A packet goes to the
//! function it names in byte 9; a Type 1 request, or one for neither, gets UR with the primary's completer ID."

use second::compare::{DuoCall, DuoServed, Reference, Subject, meaning};

use crate::coupler::{
    ALTERNATE, PRIMARY, SIDES, accepting, again, by_two_boards, code, completed_by, declined, declined_by,
    expect_caught_accepting, expect_caught_declining, expect_caught_refusing, expect_caught_serving, is_trusted,
    is_type_1, kept_plain, named, refused, rehearsed, served_alone, served_anyway, target, whom,
};
use crate::harness::{Wrong, expect_two_caught, expect_two_not_caught};

/// A board of one function answers what is not for it by UR with its own ID, so the primary can have all that is not the
/// alternate's.
#[test]
fn a_primary_that_is_given_all_that_is_not_the_alternates_is_not_caught() {
    expect_two_not_caught(accepting(|call| {
        let side = if whom(call) == Some(ALTERNATE) {
            ALTERNATE
        } else {
            PRIMARY
        };
        Some(served_alone(call, side, |_| {}))
    }));
}

#[test]
fn functions_found_by_a_table_or_by_a_difference_are_not_caught() {
    expect_two_not_caught(looking(|call| {
        let mut owners = [None; 8];
        for side in SIDES {
            owners[usize::from(call.sides[side].function)] = Some(side);
        }
        owners[usize::from(call.packet[9] % 8)]
    }));
    expect_two_not_caught(looking(|call| {
        let difference = |side: &usize| (call.packet[9] ^ call.sides[*side].function) << 5;
        SIDES.into_iter().rev().find(|side| difference(side) == 0)
    }));
}

/// A board that looks for the function in another way. Type 1 is for nobody.
fn looking(other: impl Fn(&DuoCall<'_>) -> Option<usize> + 'static) -> Wrong {
    accepting(move |call| {
        let whom = if is_type_1(call) { None } else { other(call) };
        Some(match whom {
            Some(side) => served_anyway(call, side),
            None => declined(call, PRIMARY),
        })
    })
}

/// Fails unless such a board is caught.
fn expect_caught_looking(other: impl Fn(&DuoCall<'_>) -> Option<usize> + 'static) {
    expect_two_caught(looking(other), "serve_pair");
}

/// The function whose number is alike under a mask.
fn masked(call: &DuoCall<'_>, number: u8, mask: u8) -> Option<usize> {
    call.sides.iter().position(|side| side.function & mask == number & mask)
}

#[test]
fn every_packet_goes_to_one_function() {
    expect_caught_looking(|_| Some(PRIMARY));
    expect_caught_looking(|_| Some(ALTERNATE));
}

#[test]
fn every_packet_for_one_function_goes_to_the_other() {
    expect_caught_looking(|call| named(call).map(|side| 1 - side));
    for wrong in SIDES {
        expect_caught_looking(move |call| named(call).map(|side| if side == wrong { 1 - side } else { side }));
    }
}

#[test]
fn packets_that_are_not_for_the_primary_go_to_the_alternate() {
    expect_caught_looking(|call| {
        Some(if named(call) == Some(PRIMARY) {
            PRIMARY
        } else {
            ALTERNATE
        })
    });
    expect_caught_looking(|call| {
        Some(if named(call) == Some(ALTERNATE) {
            ALTERNATE
        } else {
            PRIMARY
        })
    });
}

#[test]
fn packets_for_one_function_go_to_nobody() {
    for wrong in SIDES {
        expect_caught_looking(move |call| named(call).filter(|&side| side != wrong));
    }
}

#[test]
fn one_bit_of_the_function_is_not_looked_at() {
    for bit in 0..3 {
        expect_caught_looking(move |call| masked(call, call.packet[9], 7 & !(1 << bit)));
    }
}

#[test]
fn one_bit_of_the_function_alone_is_looked_at() {
    for bit in 0..3 {
        expect_caught_looking(move |call| masked(call, call.packet[9], 1 << bit));
    }
}

#[test]
fn the_function_is_looked_for_elsewhere() {
    expect_caught_looking(|call| masked(call, call.packet[9] >> 5, 7));
    expect_caught_looking(|call| masked(call, call.packet[9] >> 3, 0xFF));
    expect_caught_looking(|call| masked(call, call.packet[9], 0xFF));
    for place in [5, 8, 10] {
        expect_caught_looking(move |call| masked(call, call.packet[place], 7));
    }
}

#[test]
fn the_function_is_found_by_its_place_and_not_by_its_number() {
    expect_caught_looking(|call| match call.packet[9] & 7 {
        0 => Some(PRIMARY),
        1 => Some(ALTERNATE),
        _ => None,
    });
}

#[test]
fn the_function_with_the_lower_number_comes_first() {
    expect_caught_looking(|call| {
        let swapped = call.sides[PRIMARY].function > call.sides[ALTERNATE].function;
        named(call).map(|side| if swapped { 1 - side } else { side })
    });
}

#[test]
fn a_trusted_request_goes_to_whoever_has_captured_its_numbers() {
    expect_caught_looking(|call| {
        let captured = |side: &usize| meaning(call.sides[*side].kept) == Some(target(call));
        if is_trusted(call) {
            SIDES.into_iter().find(captured).or(named(call))
        } else {
            named(call)
        }
    });
}

#[test]
fn a_packet_goes_where_the_one_before_went() {
    let mut last = PRIMARY;
    let lags = move |mut call: DuoCall<'_>| {
        if rehearsed(&mut call).0.number != 0 {
            return Reference.serve_pair(call);
        }
        match whom(&call) {
            Some(side) => served_anyway(&mut call, std::mem::replace(&mut last, side)),
            None => Reference.serve_pair(call),
        }
    };
    expect_two_caught(Wrong::duo(lags), "serve_pair");
}

#[test]
fn type_1_requests_go_to_the_function_that_they_name() {
    for wrong in SIDES {
        for writes in [0x05, 0x45] {
            expect_caught_declining(move |call| {
                let (is_wrong, first) = (named(call) == Some(wrong), call.packet[0]);
                (code(call) == writes && is_wrong).then(|| {
                    let mut packet = call.packet.to_vec();
                    packet[0] = first & 0xC0 | 0x04;
                    let mut call = again(call);
                    call.packet = &packet;
                    Reference.serve_pair(call)
                })
            });
        }
    }
}

#[test]
fn type_1_requests_get_the_id_of_the_function_that_they_name() {
    expect_caught_declining(|call| match named(call) {
        Some(ALTERNATE) if is_type_1(call) => Some(declined(call, ALTERNATE)),
        _ => None,
    });
}

/// A board that answers packets for neither with the alternate's ID.
pub fn with_the_alternates_id() -> Wrong {
    accepting(|call| match whom(call) {
        None => Some(declined(call, ALTERNATE)),
        Some(_) => None,
    })
}

#[test]
fn packets_for_neither_get_the_alternates_id() {
    expect_two_caught(with_the_alternates_id(), "serve_pair");
    for code_of in [[0x04, 0x44], [0x05, 0x45], [0x1B, 0x5B]] {
        expect_caught_declining(move |call| code_of.contains(&code(call)).then(|| declined(call, ALTERNATE)));
    }
}

#[test]
fn packets_for_neither_get_the_alternates_id_by_what_is_captured() {
    expect_caught_declining(|call| (call.sides[PRIMARY].kept.captured == 0).then(|| declined(call, ALTERNATE)));
    expect_caught_declining(|call| (call.sides[ALTERNATE].kept.captured != 0).then(|| declined(call, ALTERNATE)));
}

#[test]
fn packets_for_neither_get_the_id_of_the_lower_or_the_higher_number() {
    for lower in [true, false] {
        expect_caught_declining(move |call| {
            let primary_is_lower = call.sides[PRIMARY].function < call.sides[ALTERNATE].function;
            Some(declined(
                call,
                if primary_is_lower == lower { PRIMARY } else { ALTERNATE },
            ))
        });
    }
}

#[test]
fn packets_for_neither_get_the_id_of_the_function_asked_last() {
    let mut last = PRIMARY;
    let lags = move |mut call: DuoCall<'_>| {
        if rehearsed(&mut call).0.number != 0 {
            return Reference.serve_pair(call);
        }
        match whom(&call) {
            Some(side) => {
                last = side;
                Reference.serve_pair(call)
            }
            None => declined(&mut call, last),
        }
    };
    expect_two_caught(Wrong::duo(lags), "serve_pair");
}

/// Fails unless packets for neither that are answered by another completer are caught.
fn expect_completer_caught(completer: impl Fn(&DuoCall<'_>) -> (Option<(u8, u8)>, u8) + 'static) {
    expect_caught_declining(move |call| {
        let (capture, function) = completer(call);
        Some(declined_by(call, capture, function))
    });
}

#[test]
fn packets_for_neither_get_the_number_that_they_name() {
    expect_completer_caught(|call| (meaning(call.sides[PRIMARY].kept), call.packet[9] & 7));
}

#[test]
fn packets_for_neither_get_what_they_ask_for() {
    expect_completer_caught(|call| (Some(target(call)), call.packet[9] & 7));
    expect_completer_caught(|call| (Some(target(call)), call.sides[PRIMARY].function));
}

#[test]
fn packets_for_neither_get_a_mixed_id() {
    expect_completer_caught(|call| (meaning(call.sides[ALTERNATE].kept), call.sides[PRIMARY].function));
    expect_completer_caught(|call| (meaning(call.sides[PRIMARY].kept), call.sides[ALTERNATE].function));
    expect_completer_caught(|call| (meaning(call.sides[PRIMARY].kept), 0));
    expect_completer_caught(|call| (None, call.sides[PRIMARY].function));
    expect_completer_caught(|call| {
        let [primary, alternate] = SIDES.map(|side| meaning(call.sides[side].kept));
        (primary.or(alternate), call.sides[PRIMARY].function)
    });
}

#[test]
fn packets_for_neither_are_served() {
    for side in SIDES {
        expect_caught_declining(move |call| (!is_type_1(call)).then(|| served_anyway(call, side)));
    }
}

#[test]
fn trusted_requests_for_neither_are_served() {
    for side in SIDES {
        expect_caught_declining(move |call| is_trusted(call).then(|| served_anyway(call, side)));
    }
}

#[test]
fn packets_for_neither_are_a_success() {
    expect_caught_declining(|call| {
        let (capture, function) = (meaning(call.sides[PRIMARY].kept), call.sides[PRIMARY].function);
        Some(completed_by(call, capture, function, 0x00))
    });
}

#[test]
fn packets_for_neither_are_refused_or_not_answered() {
    for number in [0, 1, 4, 6, 8, 11] {
        expect_caught_declining(move |call| Some(refused(call, number)));
    }
}

#[test]
fn packets_for_neither_get_data() {
    expect_caught_declining(|call| {
        let mut served = Reference.serve_pair(again(call));
        call.reply[0] = 0x4A;
        served.length = 16;
        Some(served)
    });
}

#[test]
fn packets_for_neither_clear_the_rest_of_the_reply() {
    expect_caught_declining(|call| {
        let served = Reference.serve_pair(again(call));
        call.reply[12..].fill(0);
        Some(served)
    });
}

#[test]
fn what_one_function_answers_has_the_others_number() {
    expect_caught_serving(|call, side| {
        let served = Reference.serve_pair(again(call));
        call.reply[5] = call.reply[5] & 0xF8 | call.sides[1 - side].function;
        Some(served)
    });
}

#[test]
fn ur_of_the_alternate_has_the_primarys_id() {
    expect_caught_accepting(|call| {
        let is_unsupported = rehearsed(call).1[6] == 0x20;
        (whom(call) == Some(ALTERNATE) && is_unsupported).then(|| declined(call, PRIMARY))
    });
}

#[test]
fn ur_of_the_alternate_has_the_primarys_id_by_its_cause() {
    for trusted in [true, false] {
        expect_caught_accepting(move |call| {
            let is_unsupported = rehearsed(call).1[6] == 0x20 && is_trusted(call) == trusted;
            (whom(call) == Some(ALTERNATE) && is_unsupported).then(|| declined(call, PRIMARY))
        });
    }
}

/// A packet with a fault that is looked for in byte 9 first.
#[test]
fn a_faulty_packet_for_neither_is_answered_by_unsupported_request() {
    for numbers in [&[4][..], &[5], &[6], &[4, 5, 6]] {
        expect_caught_refusing(numbers, |call, _| {
            named(call).is_none().then(|| declined(call, PRIMARY))
        });
    }
}

#[test]
fn a_short_packet_for_neither_is_answered_by_unsupported_request() {
    expect_caught_refusing(&[3], |call, _| {
        (call.packet.len() >= 10 && named(call).is_none()).then(|| declined(call, PRIMARY))
    });
}

#[test]
fn a_faulty_type_1_request_is_answered_by_unsupported_request() {
    for numbers in [&[5][..], &[6]] {
        expect_caught_refusing(numbers, |call, _| is_type_1(call).then(|| declined(call, PRIMARY)));
    }
}

#[test]
fn a_faulty_packet_gets_another_number_where_it_is_for_one_function() {
    for wrong in [Some(PRIMARY), Some(ALTERNATE), None] {
        for numbers in [&[3][..], &[4], &[5], &[6]] {
            expect_caught_refusing(numbers, move |call, number| {
                (call.packet.len() >= 10 && named(call) == wrong).then(|| refused(call, 3 + (number - 2) % 4))
            });
        }
    }
}

/// Serves a packet with one fault as if the field were right.
fn expect_field_caught(side: usize, is_wrong: fn(&[u8]) -> bool, repair: fn(&mut [u8])) {
    expect_caught_refusing(&[6], move |call, _| {
        (named(call) == Some(side) && is_wrong(call.packet)).then(|| {
            let mut packet = call.packet.to_vec();
            repair(&mut packet);
            let mut call = again(call);
            call.packet = &packet;
            Reference.serve_pair(call)
        })
    });
}

#[test]
fn fixed_fields_are_not_looked_at_for_one_function() {
    for side in SIDES {
        expect_field_caught(side, |packet| packet[1] & 0x70 != 0, |packet| packet[1] &= 0x8F);
        expect_field_caught(side, |packet| packet[2] & 0x30 != 0, |packet| packet[2] &= 0xCF);
        expect_field_caught(side, |packet| packet[7] & 0xF0 != 0, |packet| packet[7] &= 0x0F);
        expect_field_caught(
            side,
            |packet| packet[2] & 3 != 0 || packet[3] != 1,
            |packet| (packet[2], packet[3]) = (packet[2] & 0xFC, 1),
        );
    }
}

/// A completion without data has 12 bytes, but a reply has 16 whatever it is for.
#[test]
fn a_reply_of_12_bytes_is_enough_for_some() {
    let fits = |call: &mut DuoCall<'_>, is_such: fn(&DuoCall<'_>) -> bool| -> Option<DuoServed> {
        if call.reply.len() < 12 {
            return None;
        }
        let mut reply = [0; 16];
        let mut longer = again(call);
        longer.reply = &mut reply;
        let (served, written) = rehearsed(&mut longer);
        (served.number == 0 && served.length == 12 && is_such(call)).then(|| {
            call.reply[..12].copy_from_slice(&written[..12]);
            served
        })
    };
    expect_caught_refusing(&[2], move |call, _| fits(call, |call| whom(call).is_none()));
    expect_caught_refusing(&[2], move |call, _| fits(call, |call| whom(call) == Some(ALTERNATE)));
    expect_caught_refusing(&[2], move |call, _| fits(call, |_| true));
}

#[test]
fn a_reply_that_is_too_short_comes_after_the_packets_faults() {
    for wrong in [Some(PRIMARY), Some(ALTERNATE), None] {
        expect_caught_refusing(&[2], move |call, _| {
            let mut reply = [0; 16];
            let mut longer = again(call);
            longer.reply = &mut reply;
            let number = rehearsed(&mut longer).0.number;
            (number > 2 && named(call) == wrong).then(|| refused(call, number))
        });
    }
}

#[test]
fn a_second_packet_is_not_served() {
    let mut met = false;
    let once = move |mut call: DuoCall<'_>| {
        let (served, reply) = rehearsed(&mut call);
        if served.number == 0 && std::mem::replace(&mut met, true) {
            call.reply.copy_from_slice(&reply);
            return served;
        }
        by_two_boards(&mut call)
    };
    expect_two_caught(Wrong::duo(once), "serve_pair");
}

#[test]
fn unsupported_request_to_everything() {
    expect_caught_accepting(|call| Some(declined(call, whom(call).unwrap_or(PRIMARY))));
    for wrong in SIDES {
        expect_caught_accepting(move |call| (whom(call) == Some(wrong)).then(|| declined(call, wrong)));
    }
}

#[test]
fn one_completion_for_everything() {
    let fixed = |call: &mut DuoCall<'_>| {
        call.reply[..12].copy_from_slice(&[0x0A, 0, 0, 0, 5, 0x18, 0, 4, 1, 0, 7, 0]);
        DuoServed {
            number: 0,
            length: 12,
            kept: kept_plain(call),
        }
    };
    expect_caught_accepting(move |call| Some(fixed(call)));
    expect_caught_serving(move |call, _| Some(fixed(call)));
}

#[test]
fn what_is_asked_of_one_function_is_answered_and_not_done() {
    expect_caught_serving(|call, _| {
        let (served, reply) = rehearsed(call);
        call.reply.copy_from_slice(&reply);
        Some(served)
    });
}
