//! A switch with its list of ports, its packet and its buffer for what leaves, each with guards; and requests to send.

use super::{Lent, lent};
use thawribbon::{NotRouted, Port, raw, route};

/// The six types, without bit 7 of byte 0.
pub const TYPES: [u8; 6] = [0x04, 0x44, 0x05, 0x45, 0x1B, 0x5B];

/// A port for these buses.
pub const fn port(secondary: u8, subordinate: u8, tcs: bool) -> Port {
    Port {
        secondary,
        subordinate,
        tcs,
    }
}

/// Buses 05h to 07h, 08h alone, and 0Ah to 0Ch; the second port does not support TCS routing.
pub const THREE: [Port; 3] = [port(0x05, 0x07, true), port(0x08, 0x08, false), port(0x0A, 0x0C, true)];

/// A packet with this byte 0 and this bus, as long as byte 0 and the digest bit of byte 2 want it.
pub fn request(byte_0: u8, byte_2: u8, bus: u8) -> Vec<u8> {
    let mut packet = vec![byte_0, 0, byte_2, 1, 1, 0, 7, 0x0F, bus, 0x18, 0, 4];
    if byte_0 & 0x40 != 0 {
        packet.extend([0x11, 0x22, 0x33, 0x44]);
    }
    if byte_2 & 0x80 != 0 {
        packet.extend([0x55, 0x66, 0x77, 0x88]);
    }
    packet
}

/// What is lent to a router.
pub struct Switch {
    pub ports: Lent<Port>,
    pub leaving: Lent<u8>,
}

impl Switch {
    /// A switch with these ports, and a buffer of 22 bytes for what leaves.
    pub fn new(ports: &[Port]) -> Self {
        Switch {
            ports: Lent::new(ports, port(0xA7, 0x00, true)),
            leaving: lent(&[0xEE; 22]),
        }
    }

    /// The packet leaves by the port at this place: its own bytes, but for this byte 0.
    pub fn leaves_by(&mut self, place: usize, packet: &[u8], byte_0: u8) {
        self.leaving.expect(0, packet);
        self.leaving.expect(0, &[byte_0]);
        let routed = raw::Routed {
            length: packet.len(),
            number: 0,
            leaves: 1,
            port: place as u8,
        };
        assert_eq!(self.route(packet), routed);
    }

    /// No port has the packet's bus, and nothing is written.
    pub fn has_no_port(&mut self, packet: &[u8]) {
        assert_eq!(self.route(packet), raw::Routed::default());
    }

    /// The packet is refused with this number, and nothing is written.
    pub fn refuses(&mut self, packet: &[u8], number: u8) {
        let routed = raw::Routed {
            number,
            ..raw::Routed::default()
        };
        assert_eq!(self.route(packet), routed);
    }

    /// Routes by `raw::route` and by `route`: both must agree, and leave every buffer as expected.
    fn route(&mut self, packet: &[u8]) -> raw::Routed {
        let packet = lent(packet);
        let routed = raw::route(self.ports.part(), packet.part(), self.leaving.part_mut());
        // `route` has a buffer of its own, so it is never refused with 2.
        if routed.number != 2 {
            self.routes_alike(packet.part(), routed);
        }
        self.ports.check("the list of ports");
        packet.check("the packet");
        self.leaving.check("what leaves");
        routed
    }

    /// `route` says what `raw::route` has said.
    fn routes_alike(&self, packet: &[u8], routed: raw::Routed) {
        match route(self.ports.part(), packet) {
            Ok(leaving) => {
                assert_eq!((routed.number, routed.leaves), (0, 1));
                assert_eq!(leaving.port(), usize::from(routed.port));
                assert_eq!(leaving.bytes(), &self.leaving.part()[..routed.length]);
            }
            Err(NotRouted::Unsupported) => assert_eq!(routed, raw::Routed::default()),
            Err(NotRouted::Refused(refusal)) => assert_eq!(refusal.number(), routed.number),
        }
    }
}
