//! A list of ports read once more, in another way than the model's: bus by bus, and not by pairs.

use thawribbon::raw::Port;

/// What was found of something: nothing, one thing, or several that differ.
#[derive(Clone, Copy, Debug, PartialEq, Eq)]
enum Found<Thing> {
    Nothing,
    One(Thing),
    Several,
}

impl<Thing: Copy + PartialEq> Found<Thing> {
    fn add(&mut self, thing: Thing) {
        *self = match *self {
            Self::Nothing => Self::One(thing),
            Self::One(found) if found == thing => Self::One(thing),
            _ => Self::Several,
        };
    }
}

/// Whether a list is good, or the one thing that is wrong with it.
#[derive(Clone, Copy, Debug, PartialEq, Eq)]
pub enum Verdict {
    Good,
    TooMany,
    /// The secondary at this place is over its subordinate.
    Over(usize),
    /// The ranges at these two places meet, and no others do.
    Meet(usize, usize),
    /// More than one of these.
    Worse,
}

/// Where a bus lies in the range that it is in.
#[derive(Clone, Copy, Debug, PartialEq, Eq)]
pub enum Place {
    Only,
    Secondary,
    Inside,
    Subordinate,
}

/// How many places there are.
pub const PLACES: usize = 4;

impl Place {
    pub const fn of(bus: u8, port: Port) -> Self {
        match (bus == port.secondary, bus == port.subordinate) {
            (true, true) => Self::Only,
            (true, false) => Self::Secondary,
            (false, false) => Self::Inside,
            (false, true) => Self::Subordinate,
        }
    }
}

/// A list, and for each bus the place of the first port whose range has it.
pub struct PortList<'call> {
    pub ports: &'call [Port],
    first: [Option<u16>; 256],
    pub verdict: Verdict,
}

impl<'call> PortList<'call> {
    /// Goes through all buses of all ranges. A range whose secondary is over its subordinate has no bus.
    ///
    /// Where a bus is in a range already, that range and this one meet. Of three that share a bus, two pairs are found
    /// so, and of more pairs that meet never just one.
    pub fn read(ports: &'call [Port]) -> Self {
        let mut first = [None; 256];
        let (mut over, mut meeting) = (Found::Nothing, Found::Nothing);
        for (place, port) in ports.iter().enumerate() {
            if port.secondary > port.subordinate {
                over.add(place);
            }
            for bus in port.secondary..=port.subordinate {
                match first[usize::from(bus)] {
                    Some(met) => meeting.add((usize::from(met), place)),
                    None => first[usize::from(bus)] = Some(place as u16),
                }
            }
        }
        let verdict = match (ports.len() > 32, over, meeting) {
            (false, Found::Nothing, Found::Nothing) => Verdict::Good,
            (true, Found::Nothing, Found::Nothing) => Verdict::TooMany,
            (false, Found::One(place), Found::Nothing) => Verdict::Over(place),
            (false, Found::Nothing, Found::One((one, other))) => Verdict::Meet(one, other),
            _ => Verdict::Worse,
        };
        Self { ports, first, verdict }
    }

    /// The place of the first port whose range has a bus, and the port.
    pub fn port_of(&self, bus: u8) -> Option<(usize, Port)> {
        let place = usize::from(self.first[usize::from(bus)]?);
        Some((place, self.ports[place]))
    }

    /// Whether the buses one below and one above a bus are there, and in a range.
    pub fn taken_beside(&self, bus: u8) -> [bool; 2] {
        [bus.checked_sub(1), bus.checked_add(1)].map(|beside| beside.is_some_and(|bus| self.port_of(bus).is_some()))
    }

    /// Whether every bus is in a range.
    pub fn has_all_buses(&self) -> bool {
        !self.first.contains(&None)
    }
}

#[cfg(test)]
mod tests {
    use super::{PortList, Verdict};
    use thawribbon::raw::Port;

    fn verdict(ranges: &[(u8, u8)]) -> Verdict {
        let port = |&(secondary, subordinate): &(u8, u8)| Port {
            secondary,
            subordinate,
            tcs: false,
        };
        let ports: Vec<Port> = ranges.iter().map(port).collect();
        PortList::read(&ports).verdict
    }

    #[test]
    fn one_thing_wrong_is_told_from_two() {
        assert_eq!(verdict(&[]), Verdict::Good);
        assert_eq!(verdict(&[(9, 9), (0, 8), (10, 255)]), Verdict::Good);
        assert_eq!(verdict(&[(9, 9), (0, 9), (10, 255)]), Verdict::Meet(0, 1));
        assert_eq!(verdict(&[(9, 9), (0, 8), (3, 5)]), Verdict::Meet(1, 2));
        assert_eq!(verdict(&[(9, 9), (0, 9), (9, 255)]), Verdict::Worse);
        assert_eq!(verdict(&[(0, 5), (7, 9), (5, 7)]), Verdict::Worse);
        assert_eq!(verdict(&[(0, 5), (7, 9), (8, 3)]), Verdict::Over(2));
        assert_eq!(verdict(&[(0, 5), (9, 7), (8, 3)]), Verdict::Worse);
        assert_eq!(verdict(&[(0, 5), (5, 7), (8, 3)]), Verdict::Worse);
    }

    #[test]
    fn a_list_is_too_long_from_33_ports_on() {
        let singles: Vec<(u8, u8)> = (0..34).map(|bus| (bus, bus)).collect();
        assert_eq!(verdict(&singles[..32]), Verdict::Good);
        assert_eq!(verdict(&singles[..33]), Verdict::TooMany);
        assert_eq!(verdict(&singles), Verdict::TooMany);
    }
}
