//! Request 7/13 taken too widely: "whatever the enables" for more than the reads that succeed.

use second::compare::{Reference, ServeCall, Subject};
use thawribbon::raw::{Parts, Served};

use crate::asker::{expect_writer_caught, is_write, with_parts};
use crate::clearer::{Word, bits_of, expect_caught_leaving, leaves};
use crate::harness::{Wrong, expect_caught, expect_not_caught};
use crate::router::{expect_router_caught, or_else, with_leaving};
use crate::serving::{again, code, offset, rehearsed, with_packet};

/// What a write leaves where these are taken for the bits of its enabled bytes: of those that may be written, and of
/// those that are marked.
fn left(word: &Word, writable: u32, marked: u32) -> u32 {
    let open = word.rule & writable;
    (word.old & !open | word.data & open) & !(word.mark & word.data & marked)
}

/// Fails unless a server is caught whose writes of one space take more bytes than are enabled.
fn expect_caught_taking(taken: impl Fn(&Word) -> u32 + Copy + 'static) {
    for trusted in [false, true] {
        expect_caught_leaving(move |word| match word.trusted == trusted {
            true => left(word, taken(word), taken(word)),
            false => word.right(),
        });
    }
}

#[test]
fn the_form_of_these_with_nothing_wrong_is_not_caught() {
    expect_not_caught(leaves(|word| left(word, word.enabled, word.enabled)));
}

#[test]
fn a_write_takes_all_four_bytes() {
    expect_caught_leaving(|word| left(word, u32::MAX, u32::MAX));
}

#[test]
fn a_write_of_one_space_takes_all_four_bytes() {
    expect_caught_taking(|_| u32::MAX);
}

#[test]
fn a_write_takes_all_four_bytes_for_the_bits_that_may_be_written() {
    for trusted in [false, true] {
        expect_caught_leaving(move |word| match word.trusted == trusted {
            true => left(word, u32::MAX, word.enabled),
            false => word.right(),
        });
    }
}

#[test]
fn a_write_takes_all_four_bytes_for_the_marked_bits() {
    for trusted in [false, true] {
        expect_caught_leaving(move |word| match word.trusted == trusted {
            true => left(word, word.enabled, u32::MAX),
            false => word.right(),
        });
    }
}

#[test]
fn a_write_takes_one_byte_that_is_not_enabled() {
    for byte in 0..4 {
        expect_caught_taking(move |word| word.enabled | bits_of(1 << byte));
    }
}

#[test]
fn a_write_takes_all_four_bytes_where_none_is_enabled() {
    expect_caught_taking(|word| match word.enabled {
        0 => u32::MAX,
        enabled => enabled,
    });
}

#[test]
fn a_write_takes_all_four_bytes_where_some_byte_is_enabled() {
    expect_caught_taking(|word| match word.enabled {
        0 => 0,
        _ => u32::MAX,
    });
}

/// The fifteen patterns of enables that leave a byte out, in each space.
#[test]
fn a_write_takes_all_four_bytes_for_one_pattern_of_enables() {
    for enables in 0..15 {
        expect_caught_taking(move |word| match word.enabled == bits_of(enables) {
            true => u32::MAX,
            false => word.enabled,
        });
    }
}

#[test]
fn a_write_takes_the_neighbours_of_its_enabled_bytes() {
    expect_caught_taking(|word| word.enabled | word.enabled << 8 | word.enabled >> 8);
}

/// Serves where some replies without data get the ordinary word that is asked for.
fn with_data(is_given: impl Fn(&ServeCall<'_>) -> bool + 'static) -> Wrong {
    Wrong::serve(move |mut call| {
        let served = Reference.serve(again(&mut call));
        if served.length != 12 || !is_given(&call) {
            return served;
        }
        let at = offset(call.packet);
        (call.reply[0], call.reply[3]) = (0x4A, 0x01);
        call.reply[12..16].copy_from_slice(&call.ordinary[at..at + 4]);
        Served { length: 16, ..served }
    })
}

#[test]
fn a_read_that_gets_ur_returns_four_bytes() {
    expect_caught(with_data(|call| code(call) & 0x40 == 0), "serve");
}

#[test]
fn a_write_returns_four_bytes() {
    expect_caught(with_data(|call| code(call) & 0x40 != 0 && call.reply[6] == 0), "serve");
}

/// Whether a packet has one of the type codes of a read.
fn is_read(packet: &[u8]) -> bool {
    packet.first().is_some_and(|first| first & 0x40 == 0)
}

#[test]
fn last_enables_of_a_read_not_tested() {
    let untested = |mut call: ServeCall<'_>| {
        let (served, _) = rehearsed(&mut call);
        if served.number == 6 && is_read(call.packet) {
            with_packet(&mut call, |packet| packet[7] &= 0x0F)
        } else {
            Reference.serve(call)
        }
    };
    expect_caught(Wrong::serve(untested), "serve");
}

#[test]
fn last_enables_of_a_read_not_tested_by_the_router() {
    expect_router_caught(or_else(|ports, packet, leaving, routed| {
        if routed.number != 6 || !is_read(packet) {
            return None;
        }
        let mut other = packet.to_vec();
        other[7] &= 0x0F;
        let routed = Reference.route(ports, &other, leaving);
        if routed.leaves == 1 {
            leaving[7] = packet[7];
        }
        Some(routed)
    }));
}

#[test]
fn a_read_leaves_a_router_with_other_enables() {
    for enables in [0x00, 0x0F] {
        expect_router_caught(with_leaving(move |packet, _, leaving| {
            if is_read(packet) {
                leaving[7] = enables;
            }
        }));
    }
}

#[test]
fn enables_over_15_of_a_read_written() {
    expect_writer_caught(with_parts(|parts| Parts {
        enables: if is_write(&parts) {
            parts.enables
        } else {
            parts.enables & 0x0F
        },
        ..parts
    }));
}

#[test]
fn a_read_asked_for_with_no_byte_enabled() {
    expect_writer_caught(with_parts(|parts| Parts {
        enables: if is_write(&parts) || parts.enables > 15 {
            parts.enables
        } else {
            0x00
        },
        ..parts
    }));
}
