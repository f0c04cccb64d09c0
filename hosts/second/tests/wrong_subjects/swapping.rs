//! Wrong ways to take two writes of the same data with different enables. By request 12/13 they may be swapped, and leave
//! what one write with both sets of enables leaves.

use second::compare::{Reference, ServeCall, Subject, meaning};
use thawribbon::raw::{Capture, Port, Served};

use crate::clearer::{bits_of, enabled, is_at_a, leaves};
use crate::coupler;
use crate::harness::{Wrong, expect_repeats_caught, expect_repeats_not_caught, word};
use crate::serving::{again, code, offset, succeeds};

/// Serves a write as several, each with some of its enables, in their order. The last is answered.
fn in_pieces(call: &mut ServeCall<'_>, pieces: &[u8]) -> Served {
    let mut packet = call.packet.to_vec();
    let all = packet[7];
    let mut kept: Capture = call.kept;
    let mut served = Served::default();
    for piece in pieces {
        packet[7] = all & piece;
        served = Reference.serve(ServeCall {
            packet: &packet,
            kept,
            ..again(call)
        });
        kept = served.capture;
    }
    served
}

/// A write may be done byte by byte, from either end, in halves, or with parts of it twice.
#[test]
fn writes_in_pieces_are_not_caught() {
    let ways: [&[u8]; 5] = [&[1, 2, 4, 8], &[8, 4, 2, 1], &[3, 12], &[7, 14, 5], &[0, 15, 0]];
    for pieces in ways {
        expect_repeats_not_caught(Wrong::serve(move |mut call| {
            if succeeds(&mut call) && code(&call) & 0x40 != 0 {
                in_pieces(&mut call, pieces)
            } else {
                Reference.serve(call)
            }
        }));
    }
}

#[test]
fn bytes_that_are_not_enabled_cleared() {
    expect_repeats_caught(leaves(|word| word.right() & !(word.rule & !word.enabled)), "serve");
    expect_repeats_caught(leaves(|word| word.right() & word.enabled), "serve");
    for trusted in [false, true] {
        expect_repeats_caught(
            leaves(move |word| {
                let lost = if word.trusted == trusted {
                    word.rule & !word.enabled
                } else {
                    0
                };
                word.right() & !lost
            }),
            "serve",
        );
    }
}

#[test]
fn data_joined_by_or_and_or_xor() {
    expect_repeats_caught(leaves(|word| (word.old | word.right()) & !word.due()), "serve");
    expect_repeats_caught(leaves(|word| word.old & word.right()), "serve");
    expect_repeats_caught(
        leaves(|word| (word.old ^ word.data & word.rule & word.enabled) & !word.due()),
        "serve",
    );
}

/// What a write left, and where: known to the server at the next write.
#[derive(Clone, Copy, PartialEq, Eq)]
struct Before {
    trusted: bool,
    at: usize,
    old: u32,
    data: u32,
    enables: u8,
}

/// Serves where a write to the word that was written last leaves another one: by the last write, this one, what the word held
/// before both, and what is to be left.
fn after_another(other: impl Fn(&Before, &Before, u32) -> u32 + 'static) -> Wrong {
    let mut last: Option<Before> = None;
    Wrong::serve(move |mut call| {
        if !succeeds(&mut call) || code(&call) & 0x40 == 0 || is_at_a(&call) {
            return Reference.serve(call);
        }
        let (trusted, at) = (code(&call) == 0x5B, offset(call.packet));
        let now = Before {
            trusted,
            at,
            old: word(if trusted { call.trusted } else { call.ordinary }, at),
            data: word(call.packet, 12),
            enables: call.packet[7],
        };
        let served = Reference.serve(again(&mut call));
        let space = if trusted { call.trusted } else { call.ordinary };
        if let Some(before) = last
            .replace(now)
            .filter(|last| (last.trusted, last.at) == (trusted, at))
        {
            let left = other(&before, &now, word(space, at));
            space[at..at + 4].copy_from_slice(&left.to_le_bytes());
        }
        served
    })
}

#[test]
fn the_form_of_these_with_nothing_wrong_is_not_caught() {
    expect_repeats_not_caught(after_another(|_, _, right| right));
}

/// The second write undoes the first: all of it, or what it does not enable itself.
#[test]
fn the_second_write_undoing_the_first() {
    expect_repeats_caught(
        after_another(|last, now, right| {
            let own = bits_of(now.enables);
            right & own | last.old & !own
        }),
        "serve",
    );
    expect_repeats_caught(
        after_another(|last, now, right| {
            let lost = bits_of(last.enables) & !bits_of(now.enables);
            right & !lost | last.old & lost
        }),
        "serve",
    );
}

/// The second write of the same data is taken for a repeat, whatever its enables, or where it has fewer or more.
#[test]
fn the_second_write_taken_for_a_repeat() {
    let are_such: [fn(u8, u8) -> bool; 4] = [
        |_, _| true,
        |last, now| last & now != 0,
        |last, now| last & now == 0,
        |last, now| now & !last != 0 && last & !now != 0,
    ];
    for is_such in are_such {
        expect_repeats_caught(
            after_another(move |last, now, right| {
                let repeated = last.data == now.data && is_such(last.enables, now.enables);
                if repeated { now.old } else { right }
            }),
            "serve",
        );
    }
}

/// The second write has the enables of the first too: of the same data that is right, of other data it is not.
#[test]
fn enables_added_up() {
    expect_repeats_caught(
        after_another(|last, now, right| {
            let more = bits_of(last.enables) & !bits_of(now.enables);
            right & !more | now.data & more
        }),
        "serve",
    );
}

/// Where the lower enables have to come first, the order matters.
#[test]
fn only_one_order_served() {
    for up in [false, true] {
        expect_repeats_caught(
            after_another(move |last, now, right| {
                if (last.enables < now.enables) == up && last.enables != now.enables {
                    now.old
                } else {
                    right
                }
            }),
            "serve",
        );
    }
}

/// A write with all enables, with none, or with those of three bytes is another write than its parts.
#[test]
fn one_set_of_enables_taken_otherwise() {
    for wrong in 0..16 {
        expect_repeats_caught(
            leaves(move |word| {
                if word.enabled == bits_of(wrong) {
                    word.right() ^ (word.rule & !bits_of(wrong) | word.rule & bits_of(wrong)) & 0x0101_0101
                } else {
                    word.right()
                }
            }),
            "serve",
        );
    }
}

/// Marked bits are cleared by the first write only, by the second only, or where both enable them.
#[test]
fn marked_bits_cleared_by_one_of_two() {
    expect_repeats_caught(
        after_another(|last, now, right| {
            let both = bits_of(last.enables) & bits_of(now.enables);
            right | now.old & !both & now.data
        }),
        "serve",
    );
}

/// A write that enables nothing does not capture, or captures only where the one before did not enable all.
#[test]
fn a_capture_that_hangs_on_the_enables() {
    let captures = |mut call: ServeCall<'_>| {
        let idle = succeeds(&mut call) && code(&call) == 0x44 && enabled(call.packet) == 0;
        let kept = second::compare::plain(meaning(call.kept));
        let served = Reference.serve(call);
        if idle {
            Served {
                capture: kept,
                ..served
            }
        } else {
            served
        }
    };
    expect_repeats_caught(Wrong::serve(captures), "serve");
}

/// Of two functions, a write of the same data to the other one is taken for a repeat.
#[test]
fn a_write_to_the_other_function_taken_for_a_repeat() {
    let mut last: Option<(Option<usize>, Vec<u8>)> = None;
    expect_repeats_caught(
        Wrong::duo(move |mut call| {
            let (served, reply) = coupler::rehearsed(&mut call);
            let writes = served.number == 0 && reply[6] == 0 && coupler::code(&call) & 0x40 != 0;
            if !writes {
                return Reference.serve_pair(call);
            }
            let word = [&call.packet[10..12], &call.packet[12..16]].concat();
            let known = last.replace((coupler::whom(&call), word.clone())) == Some((coupler::whom(&call), word));
            if known {
                call.reply.copy_from_slice(&reply);
                return served;
            }
            Reference.serve_pair(call)
        }),
        "serve_pair",
    );
}

/// A board on which a write for one of the functions leaves another word than it should: by what it held, its rules, its marks,
/// the data and the bits of the enabled bytes.
fn leaving_of_one(side: usize, other: fn(u32, [u32; 4]) -> u32) -> Wrong {
    Wrong::duo(move |mut call| {
        let (served, reply) = coupler::rehearsed(&mut call);
        let writes = served.number == 0 && reply[6] == 0 && coupler::code(&call) & 0x40 != 0;
        if !writes || coupler::whom(&call) != Some(side) {
            return Reference.serve_pair(call);
        }
        let (trusted, at, data) = (coupler::is_trusted(&call), offset(call.packet), word(call.packet, 12));
        let own = &call.sides[side];
        let is_at_a = !trusted && at == own.a as usize;
        let [rules, marks] = if trusted {
            [own.trusted_rules, own.trusted_marks]
        } else {
            [own.ordinary_rules, own.ordinary_marks]
        };
        let old = word(if trusted { own.trusted } else { own.ordinary }, at);
        let left = other(old, [word(rules, at), word(marks, at), data, enabled(call.packet)]);
        let served = Reference.serve_pair(coupler::again(&mut call));
        let [primary, alternate] = call.sides;
        let own = if side == 0 { primary } else { alternate };
        if !is_at_a {
            let space = if trusted { own.trusted } else { own.ordinary };
            space[at..at + 4].copy_from_slice(&left.to_le_bytes());
        }
        served
    })
}

/// What is right, of these parts.
const fn right(old: u32, [rule, mark, data, enabled]: [u32; 4]) -> u32 {
    let open = rule & enabled;
    (old & !open | data & open) & !(mark & data & enabled)
}

#[test]
fn the_form_of_these_for_two_functions_with_nothing_wrong_is_not_caught() {
    for side in coupler::SIDES {
        expect_repeats_not_caught(leaving_of_one(side, right));
    }
}

#[test]
fn one_of_two_functions_taking_writes_otherwise() {
    let others: [fn(u32, [u32; 4]) -> u32; 4] = [
        |old, parts| right(old, parts) ^ (parts[1] & parts[2] & parts[3] & !old),
        |old, parts| right(old, parts) & !(parts[0] & !parts[3]),
        |old, parts| right(old, parts) | old & parts[0],
        |old, [rule, mark, data, _]| right(old, [rule, mark, data, u32::MAX]),
    ];
    for side in coupler::SIDES {
        for other in others {
            expect_repeats_caught(leaving_of_one(side, other), "serve_pair");
        }
    }
}

/// A switch that joins a write to the one before: it leaves with the enables of both, or does not leave where it adds nothing.
#[test]
fn a_switch_that_joins_writes() {
    for drops in [false, true] {
        let mut last: Option<Vec<u8>> = None;
        let routes = move |ports: &[Port], packet: &[u8], leaving: &mut [u8]| {
            let routed = Reference.route(ports, packet, leaving);
            let writes = routed.leaves == 1 && packet[0] & 0x40 != 0;
            let before = if writes { last.replace(packet.to_vec()) } else { None };
            let Some(before) =
                before.filter(|before| before[8..12] == packet[8..12] && before[12..16] == packet[12..16])
            else {
                return routed;
            };
            if drops && packet[7] & !before[7] == 0 {
                leaving[7] = 0;
            } else if !drops {
                leaving[7] |= before[7];
            }
            routed
        };
        expect_repeats_caught(Wrong::route(routes), "route");
    }
}

/// The second of two writes is answered with the first's requester and tag.
#[test]
fn the_second_write_answered_as_the_first() {
    let mut last: Option<(Vec<u8>, Vec<u8>)> = None;
    expect_repeats_caught(
        Wrong::serve(move |mut call| {
            let writes = succeeds(&mut call) && code(&call) & 0x40 != 0;
            let served = Reference.serve(again(&mut call));
            if writes {
                let word = call.packet[8..16].to_vec();
                let asked = call.packet[4..7].to_vec();
                if let Some((known, before)) = last.replace((word.clone(), asked)) {
                    if known == word {
                        call.reply[8..11].copy_from_slice(&before);
                    }
                }
            }
            served
        }),
        "serve",
    );
}
