//! The kinds of routed packets that are timed, one for each row.

use super::list::{self, Range};
use crate::packets::Draft;
use crate::random::Random;
use crate::raw;

/// How many ports the longest list has.
const MOST_PORTS: usize = 32;

/// A list, a packet for it and the buffer that is lent, and what every packet must be answered.
pub struct Kind {
    pub what: &'static str,
    pub ports: usize,
    pub room: usize,
    pub list: fn(&mut Random, usize) -> Vec<Range>,
    pub packet: Draw,
    verdict: Verdict,
}

/// Draws a packet for a list.
type Draw = fn(&mut Random, &[Range]) -> Draft;

/// What becomes of every packet of a kind.
#[derive(Clone, Copy)]
enum Verdict {
    LeavesAsType0,
    LeavesUnchanged,
    Unsupported,
    Refused(u8),
}

pub const KINDS: [Kind; 10] = [
    as_type_0("route, type 1 read, leaves as type 0, 1 port", 1),
    as_type_0("route, type 1 read, leaves as type 0, 8 ports", 8),
    as_type_0("route, type 1 read, leaves as type 0, 32 ports", MOST_PORTS),
    unchanged("route, trusted write, leaves unchanged, 1 port", 1),
    unchanged("route, trusted write, leaves unchanged, 8 ports", 8),
    unchanged("route, trusted write, leaves unchanged, 32 ports", MOST_PORTS),
    kind(
        "route, UR, 32 ports",
        MOST_PORTS,
        Verdict::Unsupported,
        |random, ports| {
            let bus = bus_of_none(random, ports);
            Draft::for_bus(0x05, random, bus)
        },
    ),
    Kind {
        list: list::whose_last_pair_meets,
        ..refused("route, refused 1, the last pair of 32 ports meets", 1)
    },
    Kind {
        room: 19,
        ..refused("route, refused 2, a buffer of 19 bytes, 32 ports", 2)
    },
    Kind {
        packet: |random, ports| type_1_read(random, ports).cut_below_12(random),
        ..refused("route, refused 3, a packet under 12 bytes, 32 ports", 3)
    },
];

const fn as_type_0(what: &'static str, ports: usize) -> Kind {
    kind(what, ports, Verdict::LeavesAsType0, type_1_read)
}

const fn unchanged(what: &'static str, ports: usize) -> Kind {
    kind(what, ports, Verdict::LeavesUnchanged, |random, ports| {
        let port = random.pick(ports);
        let width = usize::from(port.subordinate - port.secondary) + 1;
        let bus = port.secondary + random.below(width) as u8;
        Draft::for_bus(0x5B, random, bus)
    })
}

const fn refused(what: &'static str, number: u8) -> Kind {
    kind(what, MOST_PORTS, Verdict::Refused(number), type_1_read)
}

const fn kind(what: &'static str, ports: usize, verdict: Verdict, packet: Draw) -> Kind {
    Kind {
        what,
        ports,
        room: 20,
        list: list::good,
        packet,
        verdict,
    }
}

/// A Type 1 read for the secondary of one of the ports.
fn type_1_read(random: &mut Random, ports: &[Range]) -> Draft {
    let bus = random.pick(ports).secondary;
    Draft::for_bus(0x05, random, bus)
}

fn bus_of_none(random: &mut Random, ports: &[Range]) -> u8 {
    loop {
        let bus = random.byte();
        if !ports.iter().any(|port| port.has(bus)) {
            return bus;
        }
    }
}

impl Kind {
    /// How many packets are in a pass: few where the list is long.
    pub const fn calls(&self) -> usize {
        if self.ports == MOST_PORTS { 16 } else { 64 }
    }

    /// Whether an answer, and what it left in the buffer, are what the row is about.
    pub fn is_as_named(&self, routed: raw::Routed, packet: &[u8], leaving: &[u8]) -> bool {
        let leaves = routed.number == 0 && routed.leaves == 1 && routed.length == packet.len();
        match self.verdict {
            Verdict::LeavesAsType0 => leaves && leaving[0] & 0x7F == 0x04 && leaving[1..packet.len()] == packet[1..],
            Verdict::LeavesUnchanged => leaves && leaving[..packet.len()] == *packet,
            Verdict::Unsupported => routed == raw::Routed::default(),
            Verdict::Refused(number) => {
                routed
                    == raw::Routed {
                        number,
                        ..raw::Routed::default()
                    }
            }
        }
    }
}
