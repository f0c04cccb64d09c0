//! Wrong ways to serve a packet that has just been served. By request 12/13 it is given the same reply, and leaves what is
//! there.

use second::compare::{DuoCall, Reference, ServeCall, Subject, meaning};
use thawribbon::raw::{Capture, Heard, Parts, Port, Served};

use crate::clearer::{Word, clear, leaves};
use crate::coupler::{self, ALTERNATE, PRIMARY, declined, served_anyway};
use crate::harness::{Wrong, expect_repeats_caught, expect_repeats_not_caught};
use crate::recaller::{by_bytes, by_tag, recalling, recalling_two};
use crate::serving::{again, code, offset, short_completion, succeeds, with_packet};

/// A server that serves every packet twice is right, and so is one that serves it five times.
#[test]
fn serving_every_packet_again_is_not_caught() {
    for times in [2, 5] {
        expect_repeats_not_caught(Wrong::serve(move |mut call| {
            let mut served = Reference.serve(again(&mut call));
            for _ in 1..times {
                call.kept = served.capture;
                served = Reference.serve(again(&mut call));
            }
            served
        }));
    }
}

#[test]
fn serving_every_packet_for_two_functions_again_is_not_caught() {
    expect_repeats_not_caught(Wrong::duo(|mut call| {
        let served = Reference.serve_pair(coupler::again(&mut call));
        for (side, kept) in call.sides.iter_mut().zip(served.kept) {
            side.kept = kept;
        }
        Reference.serve_pair(call)
    }));
}

#[test]
fn routing_writing_and_reading_again_is_not_caught() {
    let routes = |ports: &[Port], packet: &[u8], leaving: &mut [u8]| {
        Reference.route(ports, packet, leaving);
        Reference.route(ports, packet, leaving)
    };
    expect_repeats_not_caught(Wrong::route(routes));
    expect_repeats_not_caught(Wrong::write(|parts, buffer| {
        Reference.write_request(parts, buffer);
        Reference.write_request(parts, buffer)
    }));
}

/// A second write sets the marked bits again that the first cleared.
#[test]
fn marked_bits_turned_round() {
    expect_repeats_caught(leaves(|word| word.taken() ^ word.due()), "serve");
    for trusted in [false, true] {
        let turns = move |word: &Word| {
            if word.trusted == trusted {
                word.taken() ^ word.due()
            } else {
                word.right()
            }
        };
        expect_repeats_caught(leaves(turns), "serve");
    }
}

/// Serves where a packet that has just been served is served in another way.
fn expect_caught_serving_again(other: impl FnMut(&mut ServeCall<'_>) -> Option<Served> + 'static) {
    let mut other = other;
    expect_repeats_caught(recalling(1, by_bytes, move |call, _, _| other(call)), "serve");
}

#[test]
fn marked_bits_set_or_cleared_by_a_repeat() {
    for sets in [false, true] {
        expect_caught_serving_again(move |call| {
            if !succeeds(call) || code(call) & 0x40 == 0 {
                return None;
            }
            let (trusted, at) = (code(call) == 0x5B, offset(call.packet));
            let served = Reference.serve(again(call));
            let (space, marks) = if trusted {
                (&mut *call.trusted, call.trusted_marks)
            } else {
                (&mut *call.ordinary, call.ordinary_marks)
            };
            for place in at..at + 4 {
                space[place] = if sets {
                    space[place] | marks[place]
                } else {
                    space[place] & !marks[place]
                };
            }
            Some(served)
        });
    }
}

/// A second write to the same word, whatever its data, clears what is marked and enabled.
#[test]
fn marked_bits_cleared_by_a_second_write() {
    let mut last = None;
    expect_repeats_caught(
        Wrong::serve(move |mut call| {
            if !succeeds(&mut call) || code(&call) & 0x40 == 0 {
                return Reference.serve(call);
            }
            let (trusted, at) = (code(&call) == 0x5B, offset(call.packet));
            let second = last.replace((trusted, at)) == Some((trusted, at));
            let served = Reference.serve(again(&mut call));
            if second && (trusted || at != call.description.a as usize) {
                let marks = if trusted {
                    call.trusted_marks
                } else {
                    call.ordinary_marks
                };
                let bits = crate::harness::word(marks, at) & crate::clearer::enabled(call.packet);
                clear(if trusted { call.trusted } else { call.ordinary }, at, bits);
            }
            served
        }),
        "serve",
    );
}

/// The completion of a write has what was captured before it captured.
#[test]
fn a_completion_from_before_the_capture() {
    let before = |mut call: ServeCall<'_>| {
        let captures = succeeds(&mut call) && code(&call) == 0x44;
        let kept = meaning(call.kept);
        let served = Reference.serve(again(&mut call));
        if captures {
            let (bus, device) = kept.unwrap_or((0, 0));
            call.reply[4..6].copy_from_slice(&[bus, device << 3 | call.description.function]);
        }
        served
    };
    expect_repeats_caught(Wrong::serve(before), "serve");
}

/// A repeat is refused as a packet that came twice, or gets Unsupported Request: of all packets, of some, or by its tag.
#[test]
fn a_repeat_refused() {
    for number in 1..=6 {
        expect_caught_serving_again(move |call| {
            Some(Served {
                number,
                length: 0,
                capture: call.kept,
            })
        });
    }
    let refuses = |call: &mut ServeCall<'_>, _: Served, _: &[u8]| {
        Some(Served {
            number: 4,
            length: 0,
            capture: call.kept,
        })
    };
    expect_repeats_caught(recalling(1, by_tag, refuses), "serve");
}

#[test]
fn a_repeat_answered_by_unsupported_request() {
    for only in [0x04, 0x44, 0x1B, 0x5B] {
        expect_caught_serving_again(move |call| {
            let kept = meaning(call.kept);
            (code(call) == only && call.reply.len() >= 16).then(|| short_completion(call, kept, 0x20))
        });
    }
}

#[test]
fn a_repeat_of_unsupported_request_called_a_success() {
    expect_repeats_caught(
        recalling(1, by_bytes, |call, _, reply| {
            let kept = meaning(call.kept);
            let wrong = reply[6] == 0x20 && call.reply.len() >= 16;
            wrong.then(|| short_completion(call, kept, 0x00))
        }),
        "serve",
    );
}

/// The third packet in a row, the fourth or the fifth is not served.
#[test]
fn a_later_repeat_not_served() {
    for wrong in [3, 4, 5] {
        let (mut last, mut times) = (Vec::new(), 0);
        expect_repeats_caught(
            Wrong::serve(move |call| {
                times = if last == call.packet { times + 1 } else { 1 };
                last = call.packet.to_vec();
                if times == wrong {
                    return Served {
                        number: 2,
                        length: 0,
                        capture: call.kept,
                    };
                }
                Reference.serve(call)
            }),
            "serve",
        );
    }
}

#[test]
fn a_repeat_that_captures_or_forgets() {
    expect_caught_serving_again(|call| {
        let served = Reference.serve(again(call));
        Some(Served {
            capture: Capture::default(),
            ..served
        })
    });
    expect_caught_serving_again(|call| {
        let target = (call.packet[8], call.packet[9] >> 3);
        let served = Reference.serve(again(call));
        let capture = second::compare::plain(Some(target));
        Some(if served.number == 0 {
            Served { capture, ..served }
        } else {
            served
        })
    });
}

#[test]
fn a_repeat_with_another_reply() {
    for place in [3, 4, 5, 6, 7, 8, 9, 10, 11, 12, 15] {
        expect_caught_serving_again(move |call| {
            let served = Reference.serve(again(call));
            let written = &mut call.reply[..served.length];
            if let Some(byte) = written.get_mut(place) {
                *byte ^= 0x20;
            }
            Some(served)
        });
    }
}

/// A repeated read shows what its word held before the last write, or the complement.
#[test]
fn a_repeated_write_of_the_complement() {
    expect_caught_serving_again(|call| {
        (code(call) & 0x40 != 0)
            .then(|| with_packet(call, |packet| packet[12..16].iter_mut().for_each(|byte| *byte = !*byte)))
    });
}

/// A repeat on a board of two functions that is served by the other one, or declined by one of them.
#[test]
fn a_repeat_for_two_functions_served_by_the_other() {
    let others: [fn(&mut DuoCall<'_>) -> Option<second::compare::DuoServed>; 4] = [
        |call| Some(served_anyway(call, 1 - coupler::whom(call)?)),
        |call| coupler::whom(call).map(|side| declined(call, side)),
        |call| coupler::whom(call).is_none().then(|| declined(call, ALTERNATE)),
        |call| (coupler::whom(call) == Some(ALTERNATE)).then(|| declined(call, PRIMARY)),
    ];
    for other in others {
        let serves = move |call: &mut DuoCall<'_>, _, _: &[u8]| {
            (coupler::rehearsed(call).0.number == 0).then(|| other(call)).flatten()
        };
        expect_repeats_caught(recalling_two(1, by_bytes, serves), "serve_pair");
    }
}

/// A switch that refuses what it has just let through, or lets it leave by another port, or changes it.
#[test]
fn a_repeat_at_the_router_taken_otherwise() {
    for way in 0..3 {
        let mut last = Vec::new();
        let routes = move |ports: &[Port], packet: &[u8], leaving: &mut [u8]| {
            let mut routed = Reference.route(ports, packet, leaving);
            let repeated = std::mem::replace(&mut last, packet.to_vec()) == packet;
            if repeated && routed.leaves == 1 {
                match way {
                    0 => routed.port = (routed.port + 1) % 32,
                    1 => leaving[6] ^= 1,
                    _ => leaving[0] ^= 0x80,
                }
            }
            routed
        };
        expect_repeats_caught(Wrong::route(routes), "route");
    }
}

/// A writer that counts the tag on where it is asked for the same again, and a reader that knows a completion.
#[test]
fn the_asking_side_taking_a_repeat_otherwise() {
    let mut last = None;
    expect_repeats_caught(
        Wrong::write(move |mut parts, buffer| {
            if last.replace(parts) == Some(parts) {
                parts.tag = parts.tag.wrapping_add(1);
            }
            Reference.write_request(Parts { ..parts }, buffer)
        }),
        "write_request",
    );
    let mut last = Vec::new();
    expect_repeats_caught(
        Wrong::read(move |completion| {
            let repeated = std::mem::replace(&mut last, completion.to_vec()) == completion;
            let heard = Reference.read_completion(completion);
            if repeated { Heard { said: 3, ..heard } } else { heard }
        }),
        "read_completion",
    );
}
