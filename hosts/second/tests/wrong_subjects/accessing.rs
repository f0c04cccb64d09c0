//! Wrong ways to read and write the two spaces.

use second::compare::{Reference, ServeCall, Subject};

use crate::clearer::expect_caught_leaving;
use crate::harness::{Wrong, expect_caught, word};
use crate::serving::{again, code, offset, succeeds, with_accepted_packet};

#[test]
fn extended_register_bits_dropped() {
    let dropped = |mut call: ServeCall<'_>| with_accepted_packet(&mut call, |packet| packet[10] &= 0xF0);
    expect_caught(Wrong::serve(dropped), "serve");
}

#[test]
fn reserved_bits_of_the_offset_taken() {
    let taken = |mut call: ServeCall<'_>| {
        with_accepted_packet(&mut call, |packet| packet[11] = packet[11].wrapping_add(packet[11] & 3))
    };
    expect_caught(Wrong::serve(taken), "serve");
}

#[test]
fn stale_bytes_at_a() {
    let stale = |mut call: ServeCall<'_>| {
        let served = Reference.serve(again(&mut call));
        let a = call.description.a as usize;
        if served.length == 16 && code(&call) == 0x04 && offset(call.packet) == a {
            call.reply[12..16].copy_from_slice(&call.ordinary[a..a + 4]);
        }
        served
    };
    expect_caught(Wrong::serve(stale), "serve");
}

#[test]
fn a_write_at_a_stores_in_the_ordinary_space() {
    let stores = |mut call: ServeCall<'_>| {
        let a = call.description.a as usize;
        if succeeds(&mut call) && code(&call) == 0x44 && offset(call.packet) == a {
            call.ordinary[a..a + 4].copy_from_slice(&call.packet[12..16]);
        }
        Reference.serve(call)
    };
    expect_caught(Wrong::serve(stores), "serve");
}

#[test]
fn a_write_at_a_stores_in_the_trusted_space() {
    let stores = |mut call: ServeCall<'_>| {
        let (a, b) = (call.description.a as usize, call.description.b as usize);
        if succeeds(&mut call) && code(&call) == 0x44 && offset(call.packet) == a {
            call.trusted[b..b + 4].copy_from_slice(&call.packet[12..16]);
        }
        Reference.serve(call)
    };
    expect_caught(Wrong::serve(stores), "serve");
}

#[test]
fn a_trusted_write_at_b_also_stores_at_a() {
    let stores = |mut call: ServeCall<'_>| {
        let served = Reference.serve(again(&mut call));
        let (a, b) = (call.description.a as usize, call.description.b as usize);
        if served.number == 0 && code(&call) == 0x5B && offset(call.packet) == b {
            let stored = word(call.trusted, b);
            call.ordinary[a..a + 4].copy_from_slice(&stored.to_le_bytes());
        }
        served
    };
    expect_caught(Wrong::serve(stores), "serve");
}

#[test]
fn rule_ignored_in_a_write() {
    expect_caught_leaving(|word| {
        let open = word.enabled & !word.mark;
        word.right() & !open | word.data & open
    });
}

#[test]
fn a_write_takes_whole_bytes_where_the_rule_has_any_bit() {
    expect_caught_leaving(|word| {
        let widened = word.rule.to_le_bytes().map(|rule| if rule == 0 { 0x00 } else { 0xFF });
        let open = u32::from_le_bytes(widened) & word.enabled & !word.mark;
        word.right() & !open | word.data & open
    });
}

/// Those of a read do not matter, but those of a write do.
#[test]
fn enables_taken_from_the_other_end() {
    let turned =
        |mut call: ServeCall<'_>| with_accepted_packet(&mut call, |packet| packet[7] = packet[7].reverse_bits() >> 4);
    expect_caught(Wrong::serve(turned), "serve");
}
