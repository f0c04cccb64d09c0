//! Calls of `route` as a whole: a list that lives for some calls, a packet for it and a buffer, with faults or without.

use thawribbon::raw::Port;

use super::cursor::Cursor;
use super::packet::{Packet, noise};
use super::packet_fault::{PacketFault, PacketFaultMaker};
use super::port_fault::{PortFault, PortFaultMaker, any_port};
use super::ports::good_list;
use super::random::Random;
use super::route_packet::sound_packet;

/// The longest buffer that is lent for what leaves.
pub const LONGEST_LEAVING: usize = 48;
/// The most calls that a list lives for.
const LONGEST_LIFE: usize = 12;

/// A call of `route`.
pub struct RouteCase {
    pub ports: Vec<Port>,
    pub packet: Packet,
    pub leaving_length: usize,
}

/// A cause for one of the numbers 1 to 6.
#[derive(Clone, Copy)]
enum Fault {
    Ports(PortFault),
    Room,
    Packet(PacketFault),
}

/// The faults, each with how often it is taken: those with many values more often.
const FAULTS: [(Fault, usize); 11] = [
    (Fault::Ports(PortFault::TooMany), 8),
    (Fault::Ports(PortFault::Over), 8),
    (Fault::Ports(PortFault::Meet), 28),
    (Fault::Room, 12),
    (Fault::Packet(PacketFault::Short), 8),
    (Fault::Packet(PacketFault::TypeCode), 12),
    (Fault::Packet(PacketFault::PacketLength), 22),
    (Fault::Packet(PacketFault::TrafficClass), 5),
    (Fault::Packet(PacketFault::Attributes), 5),
    (Fault::Packet(PacketFault::LastEnables), 5),
    (Fault::Packet(PacketFault::LengthField), 12),
];

/// Makes calls.
pub struct RouteMaker {
    list: Vec<Port>,
    calls_left: usize,
    port_faults: PortFaultMaker,
    rooms: Cursor,
    packet_faults: PacketFaultMaker,
}

impl RouteMaker {
    pub fn new() -> Self {
        Self {
            list: Vec::new(),
            calls_left: 0,
            port_faults: PortFaultMaker::new(),
            rooms: Cursor::new(20),
            packet_faults: PacketFaultMaker::new(),
        }
    }

    /// A call with no fault, one or two. Apart from these, any packet may be one that the router does not let through.
    pub fn case(&mut self, random: &mut Random) -> RouteCase {
        self.live(random);
        let count = random.weighted(&[62, 30, 8]);
        let faults = [(); 2].map(|()| FAULTS[random.weighted(&FAULTS.map(|(_, weight)| weight))].0);
        let faults = &faults[..count];
        let (ports, favoured) = self.ports(faults, random);
        let mut case = RouteCase {
            packet: sound_packet(&ports, favoured, random),
            leaving_length: room_enough(random),
            ports,
        };
        let in_turn = count == 1;
        for &fault in faults {
            match fault {
                Fault::Ports(_) => {}
                Fault::Room => case.leaving_length = self.rooms.draw(in_turn, random),
                Fault::Packet(fault) => self.packet_faults.put(fault, in_turn, &mut case.packet, random),
            }
        }
        case
    }

    /// The list that lives, with those of the faults that are its own, and the place of a port that the packet should
    /// often be for.
    fn ports(&mut self, faults: &[Fault], random: &mut Random) -> (Vec<Port>, Option<usize>) {
        let (mut ports, mut favoured) = (self.list.clone(), None);
        for &fault in faults {
            if let Fault::Ports(fault) = fault {
                favoured = self.port_faults.put(fault, faults.len() == 1, &mut ports, random);
            }
        }
        (ports, favoured)
    }

    /// Uses up one call of the list's life. Where none is left, the list is made anew.
    fn live(&mut self, random: &mut Random) {
        if self.calls_left == 0 {
            self.calls_left = random.within(1, LONGEST_LIFE);
            let any = random.below(33);
            let count = random.pick(&[0, 1, 2, 3, 31, 32, any, any, any, any, any, any, any]);
            self.list = good_list(count, random);
        }
        self.calls_left -= 1;
    }

    /// A call in which all is random.
    pub fn noise(random: &mut Random) -> RouteCase {
        let count = random.pick(&[1, 2, 3, 40]);
        let ports = (0..random.below(count + 1)).map(|_| any_port(random)).collect();
        RouteCase {
            ports,
            packet: noise(random),
            leaving_length: random.below(LONGEST_LEAVING + 1),
        }
    }
}

/// The length of a buffer that has room for every packet.
fn room_enough(random: &mut Random) -> usize {
    if random.percent(85) {
        random.within(20, 24)
    } else {
        random.within(25, LONGEST_LEAVING)
    }
}
