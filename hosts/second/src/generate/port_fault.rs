//! Faults of a list of ports: the causes for number 1.

use thawribbon::raw::Port;

use super::cursor::Cursor;
use super::ports::good_list;
use super::random::Random;

/// The most ports that are good, and the most that a list is lent with.
const MOST_PORTS: usize = 32;
pub const LONGEST_LIST: usize = 256 + MOST_PORTS;
/// The pairs of 32 ports.
const PAIRS: usize = MOST_PORTS * (MOST_PORTS - 1) / 2;

/// A cause for number 1.
#[derive(Clone, Copy)]
pub enum PortFault {
    TooMany,
    /// A secondary over its subordinate.
    Over,
    /// Two ranges that meet.
    Meet,
}

/// Puts faults into lists. Where a fault is the call's only one, the places of ports, and the pairs, have their turn.
pub struct PortFaultMaker {
    places: Cursor,
    pairs: Cursor,
}

impl PortFaultMaker {
    pub const fn new() -> Self {
        Self {
            places: Cursor::new(MOST_PORTS),
            pairs: Cursor::new(PAIRS),
        }
    }

    /// Puts a fault into a list. Where that is too short for the fault, it is made anew. Answers the place of a port
    /// with buses that has to do with the fault, if there is one.
    pub fn put(
        &mut self,
        fault: PortFault,
        in_turn: bool,
        ports: &mut Vec<Port>,
        random: &mut Random,
    ) -> Option<usize> {
        match fault {
            PortFault::TooMany => {
                *ports = too_many(random);
                Some(MOST_PORTS)
            }
            PortFault::Over => {
                let place = self.places.draw(in_turn, random);
                lengthen(ports, place, random);
                ports[place] = over(ports[place], random);
                None
            }
            PortFault::Meet => {
                let (first, second) = pair(self.pairs.draw(in_turn, random));
                lengthen(ports, second, random);
                let (moved, met) = random.pick(&[(first, second), (second, first)]);
                ports[moved] = meeting(ports, met, moved, random);
                Some(moved)
            }
        }
    }
}

/// The pair of places with a number below [`PAIRS`]: the lower one first.
fn pair(number: usize) -> (usize, usize) {
    let mut first = number;
    let mut second = 1;
    while first >= second {
        first -= second;
        second += 1;
    }
    (first, second)
}

/// Makes a list anew where it does not reach to a place.
fn lengthen(ports: &mut Vec<Port>, place: usize, random: &mut Random) {
    if ports.len() <= place {
        *ports = good_list(random.within(place + 1, MOST_PORTS), random);
    }
}

/// A list of more than 32 ports: good but for that, or one that would be good if its length had eight bits.
fn too_many(random: &mut Random) -> Vec<Port> {
    let count = match random.weighted(&[50, 20, 15, 5, 10]) {
        0 => 33,
        1 => 34,
        2 => random.within(35, 40),
        3 => random.within(41, 256),
        _ => {
            let mut ports = good_list(random.below(MOST_PORTS + 1), random);
            ports.resize_with(256 + ports.len(), || any_port(random));
            return ports;
        }
    };
    good_list(count, random)
}

/// A port of random bytes.
pub fn any_port(random: &mut Random) -> Port {
    let [secondary, subordinate, tcs, ..] = random.bits().to_le_bytes();
    Port {
        secondary,
        subordinate,
        tcs: tcs & 1 == 1,
    }
}

/// A port whose secondary is over its subordinate: by one, turned round, by all there is, or anyhow.
fn over(port: Port, random: &mut Random) -> Port {
    let higher = random.within(1, 255);
    let any = (higher, random.below(higher));
    let by_one = usize::from(port.secondary).max(1);
    let (secondary, subordinate) = match random.below(4) {
        0 => (by_one, by_one - 1),
        1 if port.secondary < port.subordinate => (port.subordinate.into(), port.secondary.into()),
        2 => (255, 0),
        _ => any,
    };
    Port {
        secondary: secondary as u8,
        subordinate: subordinate as u8,
        ..port
    }
}

/// A port for a place that meets the one at another place and, if the list was good, no other: its range lies between
/// the neighbours on both sides of that one.
fn meeting(ports: &[Port], met: usize, place: usize, random: &mut Random) -> Port {
    let range = ports[met];
    let others = || {
        ports
            .iter()
            .enumerate()
            .filter(|&(other, _)| other != met && other != place)
    };
    let below = others().filter(|(_, other)| other.subordinate < range.secondary);
    let above = others().filter(|(_, other)| other.secondary > range.subordinate);
    let lowest = below.map(|(_, other)| other.subordinate + 1).max().unwrap_or(0);
    let highest = above.map(|(_, other)| other.secondary - 1).min().unwrap_or(255);
    let any = |from: u8, to: u8, random: &mut Random| random.within(from.into(), to.max(from).into()) as u8;
    let inside = any(range.secondary, range.subordinate, random);
    let anywhere = any(lowest, range.subordinate, random);
    let secondary = random.pick(&[lowest, range.secondary, range.subordinate, inside, anywhere]);
    let least = range.secondary.max(secondary);
    let inside = any(least, range.subordinate, random);
    let anywhere = any(least, highest, random);
    let subordinate = random
        .pick(&[least, range.subordinate, highest, inside, anywhere])
        .max(least);
    Port {
        secondary,
        subordinate,
        ..ports[place]
    }
}

#[cfg(test)]
mod tests {
    use std::collections::HashSet;

    use super::{PAIRS, meeting, pair};
    use crate::generate::Random;
    use crate::generate::ports::good_list;

    #[test]
    fn every_pair_has_its_number() {
        let pairs: HashSet<(usize, usize)> = (0..PAIRS).map(pair).collect();
        assert_eq!(pairs.len(), PAIRS);
        assert!(pairs.iter().all(|&(first, second)| first < second && second < 32));
    }

    #[test]
    fn a_range_that_is_to_meet_one_meets_that_one_and_no_other() {
        let mut random = Random::new(1);
        for count in (2..=32).cycle().take(20_000) {
            let mut ports = good_list(count, &mut random);
            let (met, place) = (random.below(count), random.below(count));
            if met == place {
                continue;
            }
            ports[place] = meeting(&ports, met, place, &mut random);
            let range = ports[place];
            assert!(range.secondary <= range.subordinate, "{ports:?}");
            for other in (0..count).filter(|&other| other != place) {
                let lower = range.secondary.max(ports[other].secondary);
                let upper = range.subordinate.min(ports[other].subordinate);
                assert_eq!(lower <= upper, other == met, "{ports:?}, {met}, {place}");
            }
        }
    }
}
