//! A list of ports, judged as request 1/13 words it, and the port of a bus.

use super::refusal::Refusal;

/// "a lent list of up to 32 ports"
const MOST_PORTS: usize = 32;

/// A port: "secondary bus, subordinate bus and whether it supports TCS routing".
#[derive(Clone, Copy, Debug, PartialEq, Eq)]
pub struct Port {
    pub secondary: u8,
    pub subordinate: u8,
    pub tcs: bool,
}

impl Port {
    /// Whether a bus is in the port's range, ends included.
    fn has(self, bus: u8) -> bool {
        (self.secondary..=self.subordinate).contains(&bus)
    }

    /// Whether two ranges, neither of which is empty, have a bus in common: each begins before the other has ended.
    fn meets(self, other: Self) -> bool {
        self.secondary <= other.subordinate && other.secondary <= self.subordinate
    }
}

/// "The list is refused with 1 if it is longer than 32, if a secondary exceeds its subordinate, or if two ranges, ends
/// included, meet."
#[inline]
pub(super) fn check(ports: &[Port]) -> Result<(), Refusal> {
    let too_long = ports.len() > MOST_PORTS;
    if too_long || ports.iter().any(|port| port.secondary > port.subordinate) {
        return Err(Refusal::Outside);
    }
    let meet = two_meet(ports);
    debug_assert_eq!(meet, some_bus_is_in_two(ports));
    if meet { Err(Refusal::Outside) } else { Ok(()) }
}

/// Whether any two of the ranges meet: each port is compared with those that follow it.
fn two_meet(ports: &[Port]) -> bool {
    let mut rest = ports;
    while let [port, others @ ..] = rest {
        if others.iter().any(|&other| port.meets(other)) {
            return true;
        }
        rest = others;
    }
    false
}

/// The same once more, bus by bus. Only stated: no answer rests on it.
fn some_bus_is_in_two(ports: &[Port]) -> bool {
    let mut taken = [false; 256];
    let mut buses = ports.iter().flat_map(|port| port.secondary..=port.subordinate);
    buses.any(|bus| std::mem::replace(&mut taken[usize::from(bus)], true))
}

/// The place in the list of the port whose range has a bus, and the port. In a list that is not refused there is at
/// most one.
#[inline]
pub(super) fn port_of(ports: &[Port], bus: u8) -> Option<(usize, Port)> {
    debug_assert!(ports.iter().filter(|port| port.has(bus)).count() <= 1);
    let place = ports.iter().position(|port| port.has(bus))?;
    Some((place, ports[place]))
}

#[cfg(test)]
mod tests {
    use super::{Port, check, port_of, some_bus_is_in_two};

    /// Buses at both ends and in the middle, such that ranges between them touch, share an end, and hold one another.
    const BUSES: [u8; 9] = [0, 1, 2, 127, 128, 129, 253, 254, 255];

    fn port(secondary: u8, subordinate: u8) -> Port {
        Port {
            secondary,
            subordinate,
            tcs: false,
        }
    }

    fn ranges() -> impl Iterator<Item = Port> {
        BUSES.into_iter().flat_map(|first| BUSES.map(|last| port(first, last)))
    }

    #[test]
    fn two_ranges_are_good_where_neither_is_empty_and_no_bus_is_in_both() {
        for first in ranges() {
            let right_way_round = first.secondary <= first.subordinate;
            assert_eq!(check(&[first]).is_ok(), right_way_round, "{first:?}");
            for second in ranges() {
                let empty = !right_way_round || second.secondary > second.subordinate;
                let good = !empty && (0..=255).all(|bus| !(first.has(bus) && second.has(bus)));
                assert_eq!(check(&[first, second]).is_ok(), good, "{first:?}, {second:?}");
            }
        }
    }

    #[test]
    fn each_pair_of_32_is_compared() {
        let apart: Vec<Port> = (0..32).map(|place| port(8 * place, 8 * place + 7)).collect();
        assert!(check(&apart).is_ok());
        for first in 0..32 {
            for second in (0..32).filter(|&second| second != first) {
                let mut ports = apart.clone();
                ports[second] = port(apart[first].subordinate, apart[first].subordinate);
                assert!(
                    check(&ports).is_err() && some_bus_is_in_two(&ports),
                    "{first}, {second}"
                );
            }
        }
    }

    #[test]
    fn no_port_and_32_are_good_and_33_are_not() {
        let ports: Vec<Port> = (0..33).map(|bus| port(bus, bus)).collect();
        assert!(check(&[]).is_ok() && check(&ports[..32]).is_ok());
        assert!(check(&ports).is_err());
    }

    #[test]
    fn a_bus_has_the_port_whose_range_it_is_in() {
        let ports = [port(9, 12), port(0, 3), port(255, 255), port(4, 4)];
        for bus in 0..=255 {
            let expected = match bus {
                9..=12 => Some(0),
                0..=3 => Some(1),
                255 => Some(2),
                4 => Some(3),
                _ => None,
            };
            assert_eq!(
                port_of(&ports, bus),
                expected.map(|place| (place, ports[place])),
                "{bus}"
            );
        }
    }
}
