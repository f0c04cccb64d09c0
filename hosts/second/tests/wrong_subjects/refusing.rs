//! Wrong ways to refuse a call of `serve`.

use second::compare::{Reference, ServeCall, Subject};
use thawribbon::raw::Served;

use crate::harness::{Wrong, expect_caught};
use crate::serving::{again, offset, rehearsed, with_packet};

#[test]
fn digest_bit_ignored_in_the_length() {
    let ignored = |mut call: ServeCall<'_>| {
        with_packet(&mut call, |packet| {
            if let Some(byte) = packet.get_mut(2) {
                *byte &= 0x7F;
            }
        })
    };
    expect_caught(Wrong::serve(ignored), "serve");
}

#[test]
fn a_refusal_that_writes_to_the_reply() {
    let writes = |mut call: ServeCall<'_>| {
        let served = Reference.serve(again(&mut call));
        if served.number == 6 {
            call.reply[0] = 0x0A;
        }
        served
    };
    expect_caught(Wrong::serve(writes), "serve");
}

#[test]
fn a_refusal_that_stores() {
    let stores = |mut call: ServeCall<'_>| {
        let served = Reference.serve(again(&mut call));
        if served.number == 6 && call.packet.len() >= 16 {
            let place = offset(call.packet);
            call.ordinary[place..place + 4].copy_from_slice(&call.packet[12..16]);
        }
        served
    };
    expect_caught(Wrong::serve(stores), "serve");
}

#[test]
fn bit_7_of_the_first_byte_not_ignored() {
    let refused = |mut call: ServeCall<'_>| {
        let (served, _) = rehearsed(&mut call);
        if served.number == 0 && call.packet[0] & 0x80 != 0 {
            return Served {
                number: 4,
                length: 0,
                capture: call.kept,
            };
        }
        Reference.serve(call)
    };
    expect_caught(Wrong::serve(refused), "serve");
}

#[test]
fn length_tested_by_its_lowest_byte_only() {
    let lowest = |mut call: ServeCall<'_>| {
        with_packet(&mut call, |packet| {
            if let Some(byte) = packet.get_mut(2) {
                *byte &= 0xFC;
            }
        })
    };
    expect_caught(Wrong::serve(lowest), "serve");
}

#[test]
fn fixed_fields_tested_before_the_length() {
    let before = |mut call: ServeCall<'_>| {
        let served = Reference.serve(again(&mut call));
        if served.number == 5 && (call.packet[1] & 0x70 != 0 || call.packet[3] != 1) {
            return Served { number: 6, ..served };
        }
        served
    };
    expect_caught(Wrong::serve(before), "serve");
}

#[test]
fn a_rule_spaces_size_not_tested() {
    let untested = |mut call: ServeCall<'_>| {
        let mut rules = call.trusted_rules.to_vec();
        rules.resize(4096, 0);
        Reference.serve(ServeCall {
            trusted_rules: &rules,
            ..again(&mut call)
        })
    };
    expect_caught(Wrong::serve(untested), "serve");
}

#[test]
fn a_tested_by_its_low_16_bits() {
    let low = |mut call: ServeCall<'_>| {
        call.description.a &= 0xFFFF;
        Reference.serve(call)
    };
    expect_caught(Wrong::serve(low), "serve");
}

#[test]
fn a_reply_of_15_bytes_taken_for_a_short_completion() {
    let taken = |mut call: ServeCall<'_>| {
        if call.reply.len() != 15 {
            return Reference.serve(call);
        }
        let mut reply = [0; 16];
        let served = Reference.serve(ServeCall {
            reply: &mut reply,
            ..again(&mut call)
        });
        let written = served.length.min(12);
        call.reply[..written].copy_from_slice(&reply[..written]);
        served
    };
    expect_caught(Wrong::serve(taken), "serve");
}
