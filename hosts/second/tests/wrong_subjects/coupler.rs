//! What the wrong boards of two functions are made of: two boards of one function each, and a table of whom a packet names.

use second::compare::{DuoCall, DuoServed, Reference, ServeCall, SideCall, Subject, meaning, plain};
use thawribbon::raw::{Capture, Description};

use crate::harness::{Wrong, expect_two_caught};

/// The primary and the alternate.
pub const PRIMARY: usize = 0;
pub const ALTERNATE: usize = 1;
pub const SIDES: [usize; 2] = [PRIMARY, ALTERNATE];

/// What one function is given, lent on.
pub fn side_again<'lent>(side: &'lent mut SideCall<'_>) -> SideCall<'lent> {
    SideCall {
        function: side.function,
        a: side.a,
        b: side.b,
        kept: side.kept,
        ordinary: &mut *side.ordinary,
        ordinary_rules: side.ordinary_rules,
        ordinary_marks: side.ordinary_marks,
        trusted: &mut *side.trusted,
        trusted_rules: side.trusted_rules,
        trusted_marks: side.trusted_marks,
    }
}

/// The same call, lent on.
pub fn again<'lent>(call: &'lent mut DuoCall<'_>) -> DuoCall<'lent> {
    DuoCall {
        edition: call.edition,
        sides: call.sides.each_mut().map(side_again),
        packet: call.packet,
        reply: &mut *call.reply,
    }
}

/// The model's answer and its reply, while no byte that is lent changes.
pub fn rehearsed(call: &mut DuoCall<'_>) -> (DuoServed, Vec<u8>) {
    let mut reply = call.reply.to_vec();
    let mut spaces = call
        .sides
        .each_ref()
        .map(|side| [side.ordinary.to_vec(), side.trusted.to_vec()]);
    let mut copies = again(call);
    for (side, [ordinary, trusted]) in copies.sides.iter_mut().zip(&mut spaces) {
        (side.ordinary, side.trusted) = (ordinary, trusted);
    }
    copies.reply = &mut reply;
    let served = Reference.serve_pair(copies);
    (served, reply)
}

/// The captures that are given.
pub fn kept(call: &DuoCall<'_>) -> [Capture; 2] {
    call.sides.each_ref().map(|side| side.kept)
}

/// The captures that are given, as they are handed back with number 0.
pub fn kept_plain(call: &DuoCall<'_>) -> [Capture; 2] {
    kept(call).map(|kept| plain(meaning(kept)))
}

/// A refusal with a number.
pub fn refused(call: &DuoCall<'_>, number: u8) -> DuoServed {
    DuoServed {
        number,
        length: 0,
        kept: kept(call),
    }
}

/// The type code of a packet of 12 bytes or more.
pub fn code(call: &DuoCall<'_>) -> u8 {
    call.packet[0] & 0x7F
}

pub fn is_type_1(call: &DuoCall<'_>) -> bool {
    matches!(code(call), 0x05 | 0x45)
}

pub fn is_trusted(call: &DuoCall<'_>) -> bool {
    matches!(code(call), 0x1B | 0x5B)
}

/// The function that a packet names in byte 9, whatever else it is.
pub fn named(call: &DuoCall<'_>) -> Option<usize> {
    let number = call.packet.get(9)? & 7;
    call.sides.iter().position(|side| side.function == number)
}

/// The function that a packet without a fault goes to.
pub fn whom(call: &DuoCall<'_>) -> Option<usize> {
    if is_type_1(call) { None } else { named(call) }
}

/// The packet's bus and device.
pub fn target(call: &DuoCall<'_>) -> (u8, u8) {
    (call.packet[8], call.packet[9] >> 3)
}

/// Writes Unsupported Request with a completer's capture and function. The captures stay.
pub fn declined_by(call: &mut DuoCall<'_>, capture: Option<(u8, u8)>, function: u8) -> DuoServed {
    completed_by(call, capture, function, 0x20)
}

/// Writes a completion without data. The captures stay.
pub fn completed_by(call: &mut DuoCall<'_>, capture: Option<(u8, u8)>, function: u8, status: u8) -> DuoServed {
    let (bus, device) = capture.unwrap_or((0, 0));
    let packet = call.packet;
    let completer = device << 3 | function & 7;
    let bytes = [
        0x0A, 0, 0, 0, bus, completer, status, 4, packet[4], packet[5], packet[6], 0,
    ];
    call.reply[..12].copy_from_slice(&bytes);
    DuoServed {
        number: 0,
        length: 12,
        kept: kept_plain(call),
    }
}

/// Writes Unsupported Request with the ID of one of the functions.
pub fn declined(call: &mut DuoCall<'_>, side: usize) -> DuoServed {
    let (capture, function) = (meaning(call.sides[side].kept), call.sides[side].function);
    declined_by(call, capture, function)
}

/// Has a packet served by a board of one function that has what one of the functions has, after a change of what it is
/// given. The other function's capture stays.
pub fn served_alone(call: &mut DuoCall<'_>, side: usize, change: impl FnOnce(&mut ServeCall<'_>)) -> DuoServed {
    let mut kept = kept_plain(call);
    let own = &mut call.sides[side];
    let mut alone = ServeCall {
        description: Description {
            function: own.function,
            a: own.a,
            b: own.b,
            edition: call.edition,
        },
        kept: own.kept,
        ordinary: &mut *own.ordinary,
        ordinary_rules: own.ordinary_rules,
        ordinary_marks: own.ordinary_marks,
        trusted: &mut *own.trusted,
        trusted_rules: own.trusted_rules,
        trusted_marks: own.trusted_marks,
        packet: call.packet,
        reply: &mut *call.reply,
    };
    change(&mut alone);
    let served = Reference.serve(alone);
    kept[side] = served.capture;
    DuoServed {
        number: served.number,
        length: served.length,
        kept,
    }
}

/// Has a packet served by one of the functions, whatever function it names.
pub fn served_anyway(call: &mut DuoCall<'_>, side: usize) -> DuoServed {
    let mut packet = call.packet.to_vec();
    packet[9] = packet[9] & 0xF8 | call.sides[side].function;
    let mut call = again(call);
    call.packet = &packet;
    served_alone(&mut call, side, |_| {})
}

/// A right board: what the model refuses is refused, and what it accepts is served by two boards of one function.
pub fn by_two_boards(call: &mut DuoCall<'_>) -> DuoServed {
    match rehearsed(call).0.number {
        0 => match whom(call) {
            Some(side) => served_alone(call, side, |_| {}),
            None => declined(call, PRIMARY),
        },
        number => refused(call, number),
    }
}

/// A board where something else may be put in the place of the right answer to a packet that is accepted.
pub fn accepting(other: impl Fn(&mut DuoCall<'_>) -> Option<DuoServed> + 'static) -> Wrong {
    Wrong::duo(move |mut call| {
        let instead = (rehearsed(&mut call).0.number == 0).then(|| other(&mut call)).flatten();
        instead.unwrap_or_else(|| Reference.serve_pair(call))
    })
}

/// Fails unless such a board is caught.
pub fn expect_caught_accepting(other: impl Fn(&mut DuoCall<'_>) -> Option<DuoServed> + 'static) {
    expect_two_caught(accepting(other), "serve_pair");
}

/// Fails unless a board is caught that serves the packets for one of the functions in another way, for each of the two.
pub fn expect_caught_serving(other: impl Fn(&mut DuoCall<'_>, usize) -> Option<DuoServed> + Copy + 'static) {
    for wrong in SIDES {
        expect_caught_accepting(move |call| match whom(call) {
            Some(side) if side == wrong => other(call, side),
            _ => None,
        });
    }
}

/// Fails unless a board is caught that serves the packets for neither in another way.
pub fn expect_caught_declining(other: impl Fn(&mut DuoCall<'_>) -> Option<DuoServed> + 'static) {
    expect_caught_accepting(move |call| match whom(call) {
        None => other(call),
        Some(_) => None,
    });
}

/// A board where something else may be put in the place of a refusal with one of the numbers.
pub fn refusing(numbers: &'static [u8], other: impl Fn(&mut DuoCall<'_>, u8) -> Option<DuoServed> + 'static) -> Wrong {
    Wrong::duo(move |mut call| {
        let number = rehearsed(&mut call).0.number;
        let instead = numbers.contains(&number).then(|| other(&mut call, number)).flatten();
        instead.unwrap_or_else(|| Reference.serve_pair(call))
    })
}

/// Fails unless such a board is caught.
pub fn expect_caught_refusing(
    numbers: &'static [u8],
    other: impl Fn(&mut DuoCall<'_>, u8) -> Option<DuoServed> + 'static,
) {
    expect_two_caught(refusing(numbers, other), "serve_pair");
}
