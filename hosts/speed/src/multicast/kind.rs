//! The kinds of addresses that are timed, one for each row.

use super::draw_groups;
use crate::random::Random;
use crate::raw;

/// How many ports the longest list has.
const MOST_PORTS: usize = 32;

/// A list, and what becomes of every packet for an address that is drawn for it.
pub struct Kind {
    pub what: &'static str,
    pub ports: usize,
    verdict: Verdict,
}

/// What becomes of every packet of a kind.
#[derive(Clone, Copy, PartialEq)]
enum Verdict {
    Leaves,
    Dropped,
    NoHit,
    Refused,
}

/// An address, the list that it is judged by, and the place where the packet enters.
pub struct Draft {
    pub ports: Vec<raw::Groups>,
    pub entering: usize,
    pub address: u64,
}

pub const KINDS: [Kind; 13] = [
    kind("judge, leaves, 1 port", 1, Verdict::Leaves),
    kind("judge, leaves, 8 ports", 8, Verdict::Leaves),
    kind("judge, leaves, 32 ports", MOST_PORTS, Verdict::Leaves),
    kind("judge, dropped, 1 port", 1, Verdict::Dropped),
    kind("judge, dropped, 8 ports", 8, Verdict::Dropped),
    kind("judge, dropped, 32 ports", MOST_PORTS, Verdict::Dropped),
    kind("judge, no hit, 1 port", 1, Verdict::NoHit),
    kind("judge, no hit, 8 ports", 8, Verdict::NoHit),
    kind("judge, no hit, 32 ports", MOST_PORTS, Verdict::NoHit),
    kind(
        "judge, refused 1, the fields of the last of 1 port",
        1,
        Verdict::Refused,
    ),
    kind(
        "judge, refused 1, the fields of the last of 8 ports",
        8,
        Verdict::Refused,
    ),
    kind(
        "judge, refused 1, the fields of the last of 32 ports",
        MOST_PORTS,
        Verdict::Refused,
    ),
    kind("judge, refused 1, 33 ports", MOST_PORTS + 1, Verdict::Refused),
];

const fn kind(what: &'static str, ports: usize, verdict: Verdict) -> Kind {
    Kind { what, ports, verdict }
}

impl Kind {
    /// How many addresses are in a pass: few where the list is long.
    pub const fn calls(&self) -> usize {
        if self.ports >= MOST_PORTS { 16 } else { 64 }
    }

    /// A list of this kind, and an address for it.
    pub fn draw(&self, random: &mut Random) -> Draft {
        let mut ports: Vec<raw::Groups> = (0..self.ports).map(|_| draw_groups(random)).collect();
        let entering = random.below(self.ports);
        let port = &mut ports[entering];
        let group = random.below(port.num_group as usize + 1) as u64;
        let inside = (group << port.index) + (random.number() & ((1 << port.index) - 1));
        let address = match self.verdict {
            Verdict::NoHit => port.base.wrapping_sub(1 + random.below(4096) as u64),
            _ => port.base + inside,
        };
        port.block_all = match self.verdict {
            Verdict::Dropped => random.number() | 1 << group,
            _ => random.number() & !(1 << group),
        };
        if let (Verdict::Refused, Some(last)) = (self.verdict, ports.last_mut()) {
            last.base |= 1 << random.below(12);
        }
        Draft {
            ports,
            entering,
            address,
        }
    }

    /// Whether an answer is what the row is about.
    pub fn is_as_named(&self, judged: raw::Judged) -> bool {
        let expected = match self.verdict {
            Verdict::Refused => (1, 0),
            Verdict::NoHit => (0, 1),
            Verdict::Dropped => (0, 2),
            Verdict::Leaves => (0, 3),
        };
        (judged.number, judged.verdict) == expected
    }
}
