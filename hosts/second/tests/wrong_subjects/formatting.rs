//! Wrong ways to take bit 7 of a packet's first byte at a board. By request 9/13 edition 1 "ignores bit 7 as now, 2 gives
//! answer 4 when it is set".

use second::compare::{Reference, ServeCall, Subject, meaning, plain};
use thawribbon::raw::Served;

use crate::clearer::is_at_a;
use crate::harness::{Wrong, expect_caught, expect_not_caught};
use crate::reviser::{
    CODES, expect_caught_ignoring, expect_caught_or_else, expect_caught_refusing, has_bit_7, is_at_stake, is_of,
    or_else, refused, rehearsed_by, served_by,
};
use crate::serving::{again, code, offset, rehearsed, short_completion, target, with_packet};

#[test]
fn the_byte_taken_as_a_whole_is_not_caught() {
    expect_not_caught(or_else(|call, served| {
        let known = call.packet.first().is_some_and(|first| CODES.contains(first));
        (served.number == 4 && call.description.edition == 2 && !known).then(|| refused(call, 4))
    }));
}

#[test]
fn bit_7_tested_right_behind_the_length_is_not_caught() {
    expect_not_caught(Wrong::serve(|mut call| {
        let is_low = rehearsed_by(1, &mut call).0.number;
        if is_at_stake(&call) && !matches!(is_low, 1..=3) {
            return refused(&call, 4);
        }
        let edition = call.description.edition;
        let taken = if edition == 2 { 1 } else { edition };
        served_by(taken, &mut call)
    }));
}

#[test]
fn bit_7_made_part_of_an_unknown_type_code_is_not_caught() {
    expect_not_caught(Wrong::serve(|mut call| {
        if !is_at_stake(&call) {
            return Reference.serve(call);
        }
        with_packet(&mut call, |packet| packet[0] = 0x7F)
    }));
}

#[test]
fn a_board_of_edition_1_that_clears_bit_7_is_not_caught() {
    expect_not_caught(Wrong::serve(|mut call| {
        if call.description.edition != 1 || call.packet.is_empty() {
            return Reference.serve(call);
        }
        with_packet(&mut call, |packet| packet[0] &= 0x7F)
    }));
}

// Edition 2, packets that are served all the same.

#[test]
fn bit_7_ignored_under_edition_2() {
    expect_caught_ignoring(|_| true);
}

#[test]
fn bit_7_ignored_in_one_type_code() {
    for code in CODES {
        expect_caught_ignoring(move |call| is_of(call.packet, &[code]));
    }
}

#[test]
fn bit_7_ignored_in_all_type_codes_but_one() {
    for code in CODES {
        expect_caught_ignoring(move |call| !is_of(call.packet, &[code]));
    }
}

#[test]
fn bit_7_ignored_in_some_sorts_of_packets() {
    expect_caught_ignoring(|call| is_of(call.packet, &[0x1B, 0x5B]));
    expect_caught_ignoring(|call| !is_of(call.packet, &[0x1B, 0x5B]));
    expect_caught_ignoring(|call| code(call) & 0x40 == 0);
    expect_caught_ignoring(|call| code(call) & 0x40 != 0);
    expect_caught_ignoring(|call| is_of(call.packet, &[0x05, 0x45]));
    expect_caught_ignoring(|call| !is_of(call.packet, &[0x05, 0x45]));
}

#[test]
fn bit_7_ignored_with_or_without_a_digest_or_poison() {
    for bit in [0x40, 0x80] {
        expect_caught_ignoring(move |call| call.packet[2] & bit != 0);
        expect_caught_ignoring(move |call| call.packet[2] & bit == 0);
    }
    expect_caught_ignoring(|call| call.packet[2] & 0xC0 == 0xC0);
}

#[test]
fn bit_7_ignored_in_packets_of_one_length() {
    for length in [12, 16, 20] {
        expect_caught_ignoring(move |call| call.packet.len() == length);
        expect_caught_ignoring(move |call| call.packet.len() != length);
    }
}

#[test]
fn bit_7_ignored_at_a_or_at_b_or_elsewhere() {
    let at_b =
        |call: &ServeCall<'_>| is_of(call.packet, &[0x1B, 0x5B]) && offset(call.packet) == call.description.b as usize;
    expect_caught_ignoring(|call| is_of(call.packet, &CODES) && is_at_a(call));
    expect_caught_ignoring(|call| is_of(call.packet, &CODES) && !is_at_a(call));
    expect_caught_ignoring(move |call| at_b(call));
    expect_caught_ignoring(move |call| !at_b(call));
}

#[test]
fn bit_7_ignored_before_or_after_a_capture() {
    expect_caught_ignoring(|call| call.kept.captured == 0);
    expect_caught_ignoring(|call| call.kept.captured != 0);
}

#[test]
fn bit_7_ignored_where_no_byte_or_each_byte_is_enabled() {
    expect_caught_ignoring(|call| call.packet[7] & 0x0F == 0x00);
    expect_caught_ignoring(|call| call.packet[7] & 0x0F == 0x0F);
}

/// Whether edition 1 gives a success, and whether it gives UR.
fn status_under_edition_1(call: &mut ServeCall<'_>) -> Option<u8> {
    let (served, reply) = rehearsed_by(1, call);
    (served.number == 0).then(|| reply[6])
}

#[test]
fn bit_7_ignored_where_the_answer_would_be_a_success_or_ur() {
    for status in [0x00, 0x20] {
        expect_caught_ignoring(move |call| status_under_edition_1(call) == Some(status));
        expect_caught_ignoring(move |call| status_under_edition_1(call) != Some(status));
    }
}

#[test]
fn bit_7_ignored_where_5_or_6_would_be_given() {
    for number in [5, 6] {
        expect_caught_ignoring(move |call| rehearsed_by(1, call).0.number == number);
        expect_caught_ignoring(move |call| is_of(call.packet, &CODES) && rehearsed_by(1, call).0.number != number);
    }
}

#[test]
fn bit_7_ignored_where_another_reserved_bit_is_set_or_clear() {
    for (place, bit) in [(1, 0x80), (1, 0x01), (2, 0x04), (10, 0x80), (11, 0x01)] {
        expect_caught_ignoring(move |call| call.packet[place] & bit != 0);
        expect_caught_ignoring(move |call| call.packet[place] & bit == 0);
    }
}

// Edition 2, other answers.

#[test]
fn bit_7_given_another_number() {
    for number in [0, 1, 2, 3, 5, 6, 7] {
        expect_caught_or_else(move |call, served| {
            (served.number == 4 && is_at_stake(call) && is_of(call.packet, &CODES)).then(|| refused(call, number))
        });
    }
}

#[test]
fn bit_7_answered_by_unsupported_request() {
    expect_caught_or_else(|call, _| {
        let due = is_at_stake(call) && rehearsed_by(1, call).0.number == 0;
        let kept = meaning(call.kept);
        due.then(|| short_completion(call, kept, 0x20))
    });
    expect_caught_or_else(|call, served| {
        let due = is_at_stake(call) && served.number == 4;
        let kept = meaning(call.kept);
        due.then(|| short_completion(call, kept, 0x20))
    });
}

#[test]
fn bit_7_tested_before_the_length() {
    expect_caught_or_else(|call, served| (served.number == 3 && is_at_stake(call)).then(|| refused(call, 4)));
    for length in 1..12 {
        expect_caught_or_else(move |call, served| {
            let due = served.number == 3 && is_at_stake(call) && call.packet.len() == length;
            due.then(|| refused(call, 4))
        });
    }
}

#[test]
fn bit_7_tested_before_the_reply_or_the_board() {
    for number in [1, 2] {
        expect_caught_or_else(move |call, served| {
            (served.number == number && is_at_stake(call)).then(|| refused(call, 4))
        });
        expect_caught_or_else(move |call, served| {
            let due = served.number == number && is_at_stake(call) && call.packet.len() >= 12;
            due.then(|| refused(call, 4))
        });
    }
}

#[test]
fn bit_7_tested_behind_5_or_6() {
    for number in [5, 6] {
        expect_caught_or_else(move |call, _| {
            let due = is_at_stake(call) && rehearsed_by(1, call).0.number == number;
            due.then(|| refused(call, number))
        });
    }
}

#[test]
fn the_empty_packet_refused_for_bit_7() {
    for edition in [1, 2] {
        expect_caught_or_else(move |call, served| {
            let due = call.packet.is_empty() && served.number == 3 && call.description.edition == edition;
            due.then(|| refused(call, 4))
        });
    }
}

#[test]
fn something_done_before_the_refusal() {
    let done: [fn(&mut ServeCall<'_>) -> Served; 4] = [
        |call| {
            served_by(1, call);
            refused(call, 4)
        },
        |call| {
            call.reply[0] = 0x0A;
            refused(call, 4)
        },
        |call| Served {
            length: 12,
            ..refused(call, 4)
        },
        |call| Served {
            capture: plain(None),
            ..refused(call, 4)
        },
    ];
    for does in done {
        expect_caught_or_else(move |call, served| (served.number == 4 && is_at_stake(call)).then(|| does(call)));
    }
}

#[test]
fn a_refused_write_that_captures() {
    expect_caught_or_else(|call, served| {
        let due = served.number == 4 && is_at_stake(call) && is_of(call.packet, &[0x44]);
        due.then(|| Served {
            capture: plain(Some(target(call.packet))),
            ..refused(call, 4)
        })
    });
}

#[test]
fn a_refused_write_that_is_stored() {
    for trusted in [false, true] {
        expect_caught_or_else(move |call, served| {
            let codes: &[u8] = if trusted { &[0x5B] } else { &[0x44] };
            let due = served.number == 4 && is_at_stake(call) && is_of(call.packet, codes) && call.packet.len() >= 16;
            if !due {
                return None;
            }
            let at = offset(call.packet);
            let space = if trusted {
                &mut *call.trusted
            } else {
                &mut *call.ordinary
            };
            space[at..at + 4].copy_from_slice(&call.packet[12..16]);
            Some(refused(call, 4))
        });
    }
}

// Edition 2, packets with bit 7 clear.

#[test]
fn edition_2_refuses_what_has_bit_7_clear() {
    expect_caught_or_else(|call, served| {
        (served.number == 0 && call.description.edition == 2).then(|| refused(call, 4))
    });
    for code in CODES {
        expect_caught_or_else(move |call, served| {
            let due = served.number == 0 && call.description.edition == 2 && is_of(call.packet, &[code]);
            due.then(|| refused(call, 4))
        });
    }
}

#[test]
fn another_bit_taken_for_bit_7() {
    for place in [1, 2, 4, 5, 6, 8, 9, 10, 11] {
        expect_caught_or_else(move |call, served| {
            let due = served.number == 0 && call.description.edition == 2 && call.packet[place] & 0x80 != 0;
            due.then(|| refused(call, 4))
        });
    }
    for bit in [0, 1, 2, 3, 4, 6] {
        expect_caught_or_else(move |call, served| {
            let due = served.number == 0 && call.description.edition == 2 && call.packet[0] >> bit & 1 == 1;
            due.then(|| refused(call, 4))
        });
    }
}

/// A later revision of Base has more of these bits; the request takes one.
#[test]
fn edition_2_takes_other_reserved_bits_too() {
    for (place, reserved) in [(1, 0x8F), (2, 0x0C), (10, 0xF0), (11, 0x03)] {
        for bit in (0..8).filter(|bit| reserved >> bit & 1 == 1) {
            for number in [4, 6] {
                expect_caught_or_else(move |call, served| {
                    let set = served.number == 0 && call.packet[place] >> bit & 1 == 1;
                    (set && call.description.edition == 2).then(|| refused(call, number))
                });
            }
        }
    }
}

/// Packets with bit 7 clear "are answered alike" by the two editions.
#[test]
fn one_edition_answers_another_thing() {
    for edition in [1, 2] {
        expect_caught_or_else(move |call, served| {
            let due = served.number == 0 && call.description.edition == edition && call.packet[2] & 0x40 != 0;
            let kept = meaning(call.kept);
            due.then(|| short_completion(call, kept, 0x20))
        });
        expect_caught(
            Wrong::serve(move |mut call| {
                let served = Reference.serve(again(&mut call));
                let nothing_enabled = served.length == 16 && call.packet[7] & 0x0F == 0;
                if call.description.edition == edition && nothing_enabled {
                    call.reply[12..16].fill(0);
                }
                served
            }),
            "serve",
        );
        expect_caught_or_else(move |call, served| {
            let due = served.number == 4 && call.description.edition == edition && !has_bit_7(call.packet);
            due.then(|| refused(call, 5))
        });
        expect_caught(
            Wrong::serve(move |mut call| {
                let (served, _) = rehearsed(&mut call);
                let ordinary = served.number == 0 && is_of(call.packet, &[0x44]);
                let capture = call.kept;
                let served = Reference.serve(again(&mut call));
                if ordinary && call.description.edition == edition {
                    return Served {
                        capture: plain(meaning(capture)),
                        ..served
                    };
                }
                served
            }),
            "serve",
        );
    }
}

#[test]
fn one_edition_shows_the_bytes_stored_at_a() {
    for edition in [1, 2] {
        expect_caught(
            Wrong::serve(move |mut call| {
                let served = Reference.serve(again(&mut call));
                let a = call.description.a as usize;
                if served.length == 16 && call.description.edition == edition && is_at_a(&call) {
                    call.reply[12..16].copy_from_slice(&call.ordinary[a..a + 4]);
                }
                served
            }),
            "serve",
        );
    }
}

// Edition 1.

#[test]
fn bit_7_refused_under_edition_1() {
    expect_caught_refusing(|_| true);
}

#[test]
fn bit_7_refused_under_edition_1_in_one_type_code() {
    for code in CODES {
        expect_caught_refusing(move |call| is_of(call.packet, &[code]));
    }
}

#[test]
fn bit_7_refused_under_edition_1_in_some_packets() {
    expect_caught_refusing(|call| call.packet[2] & 0x80 != 0);
    expect_caught_refusing(|call| call.packet[2] & 0x40 != 0);
    expect_caught_refusing(|call| call.packet[2] & 0xC0 == 0);
    expect_caught_refusing(|call| is_at_a(call));
    expect_caught_refusing(|call| call.kept.captured == 0);
    expect_caught_refusing(|call| rehearsed(call).1[6] == 0x20);
    expect_caught_refusing(|call| rehearsed(call).1[6] == 0x00);
}

#[test]
fn bit_7_given_4_before_3_5_or_6_under_edition_1() {
    for number in [3, 5, 6] {
        expect_caught_or_else(move |call, served| {
            let due = served.number == number && call.description.edition == 1 && has_bit_7(call.packet);
            due.then(|| refused(call, 4))
        });
    }
}

#[test]
fn bit_7_answered_by_unsupported_request_under_edition_1() {
    expect_caught_or_else(|call, served| {
        let due = served.number == 0 && call.description.edition == 1 && has_bit_7(call.packet);
        let kept = meaning(call.kept);
        due.then(|| short_completion(call, kept, 0x20))
    });
}

/// What "counts as ordinary in demand 3" is not served as if it were.
#[test]
fn a_trusted_code_with_bit_7_served_as_an_ordinary_one() {
    for edition in [1, 2] {
        expect_caught(
            Wrong::serve(move |mut call| {
                let is_trusted = has_bit_7(call.packet) && is_of(call.packet, &[0x1B, 0x5B]);
                if !is_trusted || call.description.edition != edition {
                    return Reference.serve(call);
                }
                with_packet(&mut call, |packet| packet[0] = packet[0] & 0x40 | 0x04)
            }),
            "serve",
        );
    }
}

#[test]
fn bit_7_carried_into_the_reply() {
    expect_caught(
        Wrong::serve(|mut call| {
            let served = Reference.serve(again(&mut call));
            if served.number == 0 {
                call.reply[0] |= call.packet[0] & 0x80;
            }
            served
        }),
        "serve",
    );
}
