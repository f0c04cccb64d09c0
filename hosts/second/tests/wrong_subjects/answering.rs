//! Wrong ways to decide what becomes of a packet, and to reply.

use second::compare::{Reference, ServeCall, Subject, meaning, plain};
use thawribbon::raw::Served;

use crate::harness::{Wrong, expect_caught};
use crate::serving::{
    again, code, rehearsed, replies_only, short_completion, succeeds, with_accepted_packet, with_packet,
};

pub fn unsupported_always(mut call: ServeCall<'_>) -> Served {
    let (served, _) = rehearsed(&mut call);
    let kept = meaning(call.kept);
    if served.number == 0 {
        short_completion(&mut call, kept, 0x20)
    } else {
        served
    }
}

#[test]
fn unsupported_request_to_everything() {
    expect_caught(Wrong::serve(unsupported_always), "serve");
}

#[test]
fn one_fixed_completion() {
    let fixed = |mut call: ServeCall<'_>| {
        let (served, _) = rehearsed(&mut call);
        if served.number != 0 {
            return served;
        }
        call.reply[..12].copy_from_slice(&[0x0A, 0, 0, 0, 0, 0, 0x20, 4, 1, 0, 8, 0]);
        Served {
            number: 0,
            length: 12,
            capture: plain(None),
        }
    };
    expect_caught(Wrong::serve(fixed), "serve");
}

#[test]
fn replies_and_stores_nothing() {
    expect_caught(Wrong::serve(|mut call| replies_only(&mut call)), "serve");
}

#[test]
fn serves_the_first_packet_and_afterwards_only_replies() {
    let mut packets = 0;
    let first_only = move |mut call: ServeCall<'_>| {
        packets += 1;
        if packets == 1 {
            Reference.serve(call)
        } else {
            replies_only(&mut call)
        }
    };
    expect_caught(Wrong::serve(first_only), "serve");
}

/// A trusted request is served where one part of its target is not compared.
fn without_comparing(part: usize) -> impl FnMut(ServeCall<'_>) -> Served {
    move |mut call| {
        let (served, _) = rehearsed(&mut call);
        let (kept, function) = (call.kept, call.description.function);
        if served.number != 0 || kept.captured == 0 || code(&call) & 0x3F != 0x1B {
            return Reference.serve(call);
        }
        with_packet(&mut call, |packet| match part {
            0 => packet[8] = kept.bus,
            1 => packet[9] = kept.device << 3 | packet[9] & 7,
            _ => packet[9] = packet[9] & 0xF8 | function,
        })
    }
}

#[test]
fn each_part_of_a_trusted_target_is_compared() {
    for part in 0..3 {
        expect_caught(Wrong::serve(without_comparing(part)), "serve");
    }
}

#[test]
fn type_1_served_as_type_0() {
    let served = |mut call: ServeCall<'_>| {
        with_accepted_packet(&mut call, |packet| {
            packet[0] = if packet[0] & 0x3F == 0x05 {
                packet[0] & !1
            } else {
                packet[0]
            };
        })
    };
    expect_caught(Wrong::serve(served), "serve");
}

#[test]
fn another_function_served() {
    let served = |mut call: ServeCall<'_>| {
        let function = call.description.function;
        with_accepted_packet(&mut call, |packet| {
            packet[9] = if packet[0] & 0x3F == 0x04 {
                packet[9] & 0xF8 | function
            } else {
                packet[9]
            };
        })
    };
    expect_caught(Wrong::serve(served), "serve");
}

#[test]
fn poison_refused_on_a_read() {
    let refused = |mut call: ServeCall<'_>| {
        if succeeds(&mut call) && code(&call) & 0x40 == 0 && call.packet[2] & 0x40 != 0 {
            let kept = meaning(call.kept);
            return short_completion(&mut call, kept, 0x20);
        }
        Reference.serve(call)
    };
    expect_caught(Wrong::serve(refused), "serve");
}

#[test]
fn reply_bytes_past_the_written_ones_cleared() {
    let cleared = |mut call: ServeCall<'_>| {
        let served = Reference.serve(again(&mut call));
        if served.number == 0 {
            call.reply[served.length..].fill(0);
        }
        served
    };
    expect_caught(Wrong::serve(cleared), "serve");
}
