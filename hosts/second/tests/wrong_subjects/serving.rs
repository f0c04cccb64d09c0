//! What the wrong ways to serve a packet are made of.

use second::compare::{Reference, ServeCall, Subject, plain};
use thawribbon::raw::Served;

/// The same call, lent on.
pub fn again<'lent>(call: &'lent mut ServeCall<'_>) -> ServeCall<'lent> {
    ServeCall {
        description: call.description,
        kept: call.kept,
        ordinary: &mut *call.ordinary,
        ordinary_rules: call.ordinary_rules,
        ordinary_marks: call.ordinary_marks,
        trusted: &mut *call.trusted,
        trusted_rules: call.trusted_rules,
        trusted_marks: call.trusted_marks,
        packet: call.packet,
        reply: &mut *call.reply,
    }
}

/// The model's answer and its reply, while no byte that is lent changes.
pub fn rehearsed(call: &mut ServeCall<'_>) -> (Served, Vec<u8>) {
    let (mut ordinary, mut trusted, mut reply) = (call.ordinary.to_vec(), call.trusted.to_vec(), call.reply.to_vec());
    let copies = ServeCall {
        ordinary: &mut ordinary,
        trusted: &mut trusted,
        reply: &mut reply,
        ..again(call)
    };
    (Reference.serve(copies), reply)
}

/// Writes a completion without data for the packet.
pub fn short_completion(call: &mut ServeCall<'_>, capture: Option<(u8, u8)>, status: u8) -> Served {
    let (bus, device) = capture.unwrap_or((0, 0));
    let packet = call.packet;
    let completer = device << 3 | call.description.function;
    let bytes = [
        0x0A, 0, 0, 0, bus, completer, status, 4, packet[4], packet[5], packet[6], 0,
    ];
    call.reply[..12].copy_from_slice(&bytes);
    Served {
        number: 0,
        length: 12,
        capture: plain(capture),
    }
}

pub fn code(call: &ServeCall<'_>) -> u8 {
    call.packet[0] & 0x7F
}

pub fn offset(packet: &[u8]) -> usize {
    usize::from(packet[10] & 0x0F) << 8 | usize::from(packet[11] & 0xFC)
}

/// The packet's bus and device.
pub fn target(packet: &[u8]) -> (u8, u8) {
    (packet[8], packet[9] >> 3)
}

/// Whether the model answers the packet with a success.
pub fn succeeds(call: &mut ServeCall<'_>) -> bool {
    let (served, reply) = rehearsed(call);
    served.number == 0 && reply[6] == 0
}

/// Serves another packet in the place of the one given.
pub fn with_packet(call: &mut ServeCall<'_>, change: impl FnOnce(&mut Vec<u8>)) -> Served {
    let mut packet = call.packet.to_vec();
    change(&mut packet);
    Reference.serve(ServeCall {
        packet: &packet,
        ..again(call)
    })
}

/// Serves where the packet, if it is accepted, is changed first.
pub fn with_accepted_packet(call: &mut ServeCall<'_>, change: impl FnOnce(&mut Vec<u8>)) -> Served {
    if rehearsed(call).0.number == 0 {
        with_packet(call, change)
    } else {
        Reference.serve(again(call))
    }
}

/// The model's answer and reply, but no byte of a space changes.
pub fn replies_only(call: &mut ServeCall<'_>) -> Served {
    let (served, reply) = rehearsed(call);
    call.reply.copy_from_slice(&reply);
    served
}
