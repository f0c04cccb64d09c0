//! What the wrong ways to take an edition, and bit 7 of a packet's first byte, are made of.

use second::compare::{Reference, ServeCall, Subject};
use thawribbon::raw::Served;

use crate::harness::{Wrong, expect_caught};
use crate::serving::{again, rehearsed};

/// A refusal with a number.
pub fn refused(call: &ServeCall<'_>, number: u8) -> Served {
    Served {
        number,
        length: 0,
        capture: call.kept,
    }
}

/// Whether bit 7 of a packet's first byte is set.
pub fn has_bit_7(packet: &[u8]) -> bool {
    packet.first().is_some_and(|first| first & 0x80 != 0)
}

/// Whether a board of edition 2 is given a packet with bit 7 set.
pub fn is_at_stake(call: &ServeCall<'_>) -> bool {
    call.description.edition == 2 && has_bit_7(call.packet)
}

/// Whether a packet has 12 bytes or more, and one of these type codes.
pub fn is_of(packet: &[u8], codes: &[u8]) -> bool {
    packet.len() >= 12 && codes.contains(&(packet[0] & 0x7F))
}

pub const CODES: [u8; 6] = [0x04, 0x44, 0x05, 0x45, 0x1B, 0x5B];

/// Serves by another edition than the board's.
pub fn served_by(edition: u32, call: &mut ServeCall<'_>) -> Served {
    let mut call = again(call);
    call.description.edition = edition;
    Reference.serve(call)
}

/// The model's answer and its reply by another edition than the board's, while no byte that is lent changes.
pub fn rehearsed_by(edition: u32, call: &mut ServeCall<'_>) -> (Served, Vec<u8>) {
    let mut call = again(call);
    call.description.edition = edition;
    rehearsed(&mut call)
}

/// Serves where the edition is taken for another one.
pub fn taking(other: impl Fn(u32) -> u32 + 'static) -> Wrong {
    Wrong::serve(move |mut call| {
        let edition = other(call.description.edition);
        served_by(edition, &mut call)
    })
}

/// Fails unless a server that takes the edition for another one is caught.
pub fn expect_caught_taking(other: impl Fn(u32) -> u32 + 'static) {
    expect_caught(taking(other), "serve");
}

/// Serves where the model's answer is given unless something else is put in its place.
pub fn or_else(other: impl Fn(&mut ServeCall<'_>, Served) -> Option<Served> + 'static) -> Wrong {
    Wrong::serve(move |mut call| {
        let (served, _) = rehearsed(&mut call);
        other(&mut call, served).unwrap_or_else(|| Reference.serve(call))
    })
}

/// Fails unless a server that puts something else in the place of the model's answer is caught.
pub fn expect_caught_or_else(other: impl Fn(&mut ServeCall<'_>, Served) -> Option<Served> + 'static) {
    expect_caught(or_else(other), "serve");
}

/// Fails unless a board of edition 2 is caught that ignores bit 7 in some packets.
pub fn expect_caught_ignoring(is_ignored: impl Fn(&mut ServeCall<'_>) -> bool + 'static) {
    expect_caught_or_else(move |call, served| {
        (served.number == 4 && is_at_stake(call) && is_ignored(call)).then(|| served_by(1, call))
    });
}

/// Fails unless a board of edition 1 is caught that refuses bit 7 in some of the packets that it has to serve.
pub fn expect_caught_refusing(is_refused: impl Fn(&mut ServeCall<'_>) -> bool + 'static) {
    expect_caught_or_else(move |call, served| {
        let due = call.description.edition == 1 && served.number == 0 && has_bit_7(call.packet);
        (due && is_refused(call)).then(|| refused(call, 4))
    });
}
