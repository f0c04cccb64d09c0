//! A router with a board behind one of its ports: what is sent to the board goes through it.

use thawribbon::raw::{Port, Routed};

use super::difference::Difference;
use super::routing::route;
use super::subject::Subject;
use crate::classes::Departure;
use crate::generate::{Backplane, LONGEST_LEAVING, LONGEST_LIST, LONGEST_PACKET, Packet, Random, any_port};
use crate::twin::Twin;

/// A router, and what is lent to it.
pub struct Switch {
    pub backplane: Backplane,
    ports: Twin<Port>,
    packet: Twin<u8>,
    leaving: Twin<u8>,
}

/// What became of a packet at the router: the verdict, and what left.
#[derive(Clone, Copy, Debug, PartialEq, Eq)]
pub struct Passed {
    pub routed: Routed,
    bytes: [u8; LONGEST_PACKET],
}

impl Passed {
    /// What left, as a packet.
    pub const fn packet(&self) -> Packet {
        Packet {
            bytes: self.bytes,
            length: self.routed.length,
        }
    }
}

impl Switch {
    pub fn new() -> Self {
        Self {
            backplane: Backplane {
                ports: Vec::new(),
                place: 0,
            },
            ports: Twin::new(LONGEST_LIST),
            packet: Twin::new(LONGEST_PACKET),
            leaving: Twin::new(LONGEST_LEAVING),
        }
    }

    /// Has another list of ports, and the board behind another one. The buffers get other starts.
    pub fn renew(&mut self, random: &mut Random) {
        self.backplane = Backplane::draw(random);
        self.ports.refill(|ports| ports.fill_with(|| any_port(random)));
        self.packet.refill(|bytes| random.fill(bytes));
        self.ports.shift(random.below(8));
        self.packet.shift(random.below(8));
        self.leaving.shift(random.below(8));
        self.lend_list();
    }

    /// Lends the list as it is.
    pub fn lend_list(&mut self) {
        self.ports.set(0, &self.backplane.ports);
        self.ports.lend(self.backplane.ports.len());
    }

    /// Has one more port than the list may have, or a range that is upside down, until the list is lent anew.
    pub fn spoil_list(&mut self, random: &mut Random) {
        if random.percent(50) {
            self.ports.lend(33);
        } else {
            let port = Port {
                secondary: 9,
                subordinate: 8,
                tcs: true,
            };
            self.ports.set(random.below(self.backplane.ports.len()), &[port]);
        }
    }

    /// Routes a packet with a random buffer of so many bytes.
    pub fn route(
        &mut self,
        packet: &Packet,
        room: usize,
        random: &mut Random,
        subject: &mut impl Subject,
    ) -> Result<Passed, Box<Difference>> {
        self.packet.set(0, &packet.bytes);
        self.packet.lend(packet.length);
        self.leaving.refill(|bytes| random.fill(bytes));
        self.leaving.lend(room);
        let routed = route(&mut self.ports, &mut self.packet, &mut self.leaving, subject)?;
        let mut bytes = [0; LONGEST_PACKET];
        bytes[..routed.length].copy_from_slice(&self.leaving.ours()[..routed.length]);
        Ok(Passed { routed, bytes })
    }

    /// Whether a packet leaves by the board's port.
    pub fn reaches(&self, passed: &Passed) -> bool {
        passed.routed.leaves == 1 && usize::from(passed.routed.port) == self.backplane.place
    }

    /// Routes a packet that has to leave by the board's port, as it should. What leaves is the answer.
    pub fn through(
        &mut self,
        packet: &Packet,
        random: &mut Random,
        subject: &mut impl Subject,
    ) -> Result<Packet, Box<Difference>> {
        let passed = self.route(packet, random.within(20, LONGEST_LEAVING), random, subject)?;
        let due = Departure::of(&packet.bytes, self.backplane.port()).bytes(packet.as_slice());
        assert!(
            self.reaches(&passed) && passed.packet().as_slice() == due,
            "a packet does not leave as it should: {:02x?}",
            packet.as_slice()
        );
        Ok(passed.packet())
    }
}
