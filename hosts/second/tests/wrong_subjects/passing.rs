//! Wrong ways to take bit 7 of a packet's first byte at a router, and on the asking side. By request 9/13 "The router keeps
//! ignoring it", and what is written has it clear.

use std::cell::Cell;
use std::rc::Rc;

use second::compare::{Reference, Subject};
use thawribbon::raw::Routed;

use crate::asker::{expect_writer_caught, with_written};
use crate::harness::Wrong;
use crate::reviser::has_bit_7;
use crate::router::{
    TRUSTED, TYPE_0, TYPE_1, UNSUPPORTED, expect_router_caught, is_of, or_else, refused, rehearsed, with_leaving,
};

/// Fails unless a router is caught that answers something else to packets with bit 7 set that leave.
fn expect_caught_answering(other: Routed, is_such: impl Fn(&[u8]) -> bool + 'static) {
    expect_router_caught(or_else(move |_, packet, _, routed| {
        (routed.leaves == 1 && has_bit_7(packet) && is_such(packet)).then_some(other)
    }));
}

#[test]
fn bit_7_refused_at_the_router() {
    for number in [4, 5, 6] {
        expect_caught_answering(refused(number), |_| true);
    }
    expect_caught_answering(UNSUPPORTED, |_| true);
}

#[test]
fn bit_7_refused_at_the_router_in_some_packets() {
    expect_caught_answering(refused(4), |packet| is_of(packet, TRUSTED));
    expect_caught_answering(refused(4), |packet| is_of(packet, TYPE_1));
    expect_caught_answering(refused(4), |packet| packet[0] & 0x40 != 0);
    expect_caught_answering(refused(4), |packet| packet[0] & 0x40 == 0);
    expect_caught_answering(refused(4), |packet| packet[2] & 0x80 != 0);
    expect_caught_answering(refused(4), |packet| packet[2] & 0x40 != 0);
}

#[test]
fn bit_7_refused_at_the_router_where_there_is_no_port() {
    expect_router_caught(or_else(|_, packet, _, routed| {
        (routed == UNSUPPORTED && has_bit_7(packet)).then_some(refused(4))
    }));
}

#[test]
fn bit_7_tested_before_3_5_or_6_at_the_router() {
    for number in [3, 5, 6] {
        expect_router_caught(or_else(move |_, packet, _, routed| {
            (routed.number == number && has_bit_7(packet)).then_some(refused(4))
        }));
    }
}

/// A router has no edition, also not that of a board.
#[test]
fn bit_7_refused_at_the_router_by_the_edition_of_the_board_before() {
    let edition = Rc::new(Cell::new(0));
    let last = Rc::clone(&edition);
    let board = Wrong::serve(move |call| {
        last.set(call.description.edition);
        Reference.serve(call)
    });
    expect_router_caught(board.and_route(move |ports, packet, leaving| {
        let (routed, _) = rehearsed(ports, packet, leaving);
        if edition.get() == 2 && routed.number == 0 && has_bit_7(packet) {
            return refused(4);
        }
        Reference.route(ports, packet, leaving)
    }));
}

#[test]
fn type_0_with_bit_7_let_through() {
    expect_router_caught(Wrong::route(|ports, packet, leaving| {
        if !is_of(packet, TYPE_0) || !has_bit_7(packet) {
            return Reference.route(ports, packet, leaving);
        }
        let mut type_1 = packet.to_vec();
        type_1[0] |= 1;
        Reference.route(ports, &type_1, leaving)
    }));
}

#[test]
fn bit_7_changed_on_the_way() {
    expect_router_caught(with_leaving(|_, _, leaving| leaving[0] &= 0x7F));
    expect_router_caught(with_leaving(|_, _, leaving| leaving[0] |= 0x80));
    expect_router_caught(with_leaving(|_, _, leaving| leaving[0] ^= 0x80));
    expect_router_caught(with_leaving(|packet, _, leaving| {
        if is_of(packet, TRUSTED) {
            leaving[0] &= 0x7F;
        }
    }));
    expect_router_caught(with_leaving(|packet, _, leaving| {
        if is_of(packet, TYPE_1) {
            leaving[0] &= 0x7F;
        }
    }));
}

#[test]
fn bit_7_written_by_one_who_asks() {
    expect_writer_caught(with_written(|_, request| request[0] |= 0x80));
    for kind in [0x04, 0x44, 0x05, 0x45, 0x1B, 0x5B] {
        expect_writer_caught(with_written(move |parts, request| {
            if parts.kind == kind {
                request[0] |= 0x80;
            }
        }));
    }
}
