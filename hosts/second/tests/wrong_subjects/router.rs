//! What the wrong ways to route a packet are made of.

use second::compare::{Reference, Subject};
use thawribbon::raw::{Port, Routed};

use crate::harness::{Wrong, expect_caught};

/// A refusal with a number.
pub const fn refused(number: u8) -> Routed {
    Routed {
        length: 0,
        number,
        leaves: 0,
        port: 0,
    }
}

/// The verdict UR.
pub const UNSUPPORTED: Routed = refused(0);

pub fn has(port: &Port, bus: u8) -> bool {
    port.secondary <= bus && bus <= port.subordinate
}

/// Whether a packet is long enough to have a bus, and has one of these two type codes.
pub fn is_of(packet: &[u8], codes: [u8; 2]) -> bool {
    packet.len() >= 12 && codes.contains(&(packet[0] & 0x7F))
}

pub const TYPE_0: [u8; 2] = [0x04, 0x44];
pub const TYPE_1: [u8; 2] = [0x05, 0x45];
pub const TRUSTED: [u8; 2] = [0x1B, 0x5B];

/// The first port of a list that has the packet's bus.
pub fn first_match(ports: &[Port], packet: &[u8]) -> Option<usize> {
    let &bus = packet.get(8)?;
    ports.iter().position(|port| has(port, bus))
}

/// Routes a packet by the port at a place, or by none, without a look at the others.
pub fn by_place(ports: &[Port], place: Option<usize>, packet: &[u8], leaving: &mut [u8]) -> Routed {
    let Some(place) = place else {
        return Reference.route(&[], packet, leaving);
    };
    let routed = Reference.route(&ports[place..=place], packet, leaving);
    Routed {
        port: routed.leaves * place as u8,
        ..routed
    }
}

/// The model's answer and what it leaves in the buffer, while no byte that is lent changes.
pub fn rehearsed(ports: &[Port], packet: &[u8], leaving: &[u8]) -> (Routed, Vec<u8>) {
    let mut copy = leaving.to_vec();
    (Reference.route(ports, packet, &mut copy), copy)
}

/// Routes where the answer is the model's unless something else is put in its place.
pub fn or_else(other: impl Fn(&[Port], &[u8], &mut [u8], Routed) -> Option<Routed> + 'static) -> Wrong {
    Wrong::route(move |ports, packet, leaving| {
        let (routed, _) = rehearsed(ports, packet, leaving);
        match other(ports, packet, leaving, routed) {
            Some(answer) => answer,
            None => Reference.route(ports, packet, leaving),
        }
    })
}

/// Routes where what leaves, given with the packet and its port, is changed in the buffer.
pub fn with_leaving(change: impl Fn(&[u8], &Port, &mut [u8]) + 'static) -> Wrong {
    Wrong::route(move |ports, packet, leaving| {
        let routed = Reference.route(ports, packet, leaving);
        if routed.leaves == 1 {
            change(packet, &ports[usize::from(routed.port)], &mut leaving[..routed.length]);
        }
        routed
    })
}

/// Routes where what is told of a packet that leaves is changed.
pub fn with_told(change: impl Fn(&[Port], &[u8], Routed) -> Routed + 'static) -> Wrong {
    Wrong::route(move |ports, packet, leaving| {
        let routed = Reference.route(ports, packet, leaving);
        if routed.leaves == 1 {
            change(ports, packet, routed)
        } else {
            routed
        }
    })
}

/// Fails unless a router is caught.
pub fn expect_router_caught(subject: Wrong) {
    expect_caught(subject, "route");
}
