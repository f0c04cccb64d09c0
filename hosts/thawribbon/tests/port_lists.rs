//! The list of ports of a router: lists of every count, ranges in every order, and what makes a list a bad one.
#![forbid(unsafe_code)]

mod common;

use common::lent;
use common::switch::{Switch, port, request};
use thawribbon::{PORTS, Port};

/// So many ports, each with three buses and a bus that nobody has behind it.
fn spread(count: usize) -> Vec<Port> {
    let secondaries = (0..count).map(|place| 4 * place as u8);
    secondaries.map(|bus| port(bus, bus + 2, true)).collect()
}

#[test]
fn lists_of_0_to_32_ports_find_every_bus() {
    for count in 0..=PORTS {
        for downwards in [false, true] {
            let mut ports = spread(count);
            if downwards {
                ports.reverse();
            }
            for bus in 0..=255 {
                let packet = request(0x1B, 0x00, bus);
                let found = ports
                    .iter()
                    .position(|port| bus / 4 == port.secondary / 4 && bus % 4 != 3);
                match found {
                    Some(place) => Switch::new(&ports).leaves_by(place, &packet, 0x1B),
                    None => Switch::new(&ports).has_no_port(&packet),
                }
            }
        }
    }
}

#[test]
fn longer_lists_are_refused_whatever_else_is_lent() {
    for count in PORTS + 1..=64 {
        let mut switch = Switch::new(&spread(count));
        switch.refuses(&request(0x45, 0x00, 0x00), 1);
        switch.refuses(&[], 1);
        switch.leaving = lent(&[]);
        switch.refuses(&[], 1);
    }
    Switch::new(&spread(64).repeat(100)).refuses(&request(0x45, 0x00, 0x00), 1);
}

#[test]
fn every_way_in_which_two_ranges_lie() {
    let ends = [0x00, 0x01, 0x02, 0x03, 0x80, 0xFE, 0xFF];
    let ranges: Vec<Port> = ends
        .iter()
        .flat_map(|&from| ends.map(|to| port(from, to, false)))
        .collect();
    for one in &ranges {
        for other in &ranges {
            let mut switch = Switch::new(&[*one, *other]);
            let packet = request(0x05, 0x00, other.secondary);
            let are_ranges = one.secondary <= one.subordinate && other.secondary <= other.subordinate;
            let are_apart = one.subordinate < other.secondary || other.subordinate < one.secondary;
            if are_ranges && are_apart {
                switch.leaves_by(1, &packet, 0x04);
            } else {
                switch.refuses(&packet, 1);
            }
        }
    }
}

#[test]
fn a_port_at_every_place_turned_round() {
    for place in 0..PORTS {
        let mut ports = spread(PORTS);
        (ports[place].secondary, ports[place].subordinate) = (ports[place].subordinate, ports[place].secondary);
        Switch::new(&ports).refuses(&request(0x45, 0x00, 0x00), 1);
    }
}

#[test]
fn every_two_places_that_meet_at_one_bus() {
    for one in 0..PORTS {
        for other in 0..PORTS {
            let mut ports = spread(PORTS);
            let bus = ports[other].subordinate;
            ports[one] = port(bus, bus, true);
            let packet = request(0x45, 0x00, bus);
            if one == other {
                Switch::new(&ports).leaves_by(one, &packet, 0x44);
            } else {
                Switch::new(&ports).refuses(&packet, 1);
            }
        }
    }
}

#[test]
fn one_port_with_every_bus() {
    for bus in 0..=255 {
        let mut switch = Switch::new(&[port(0x00, 0xFF, true)]);
        switch.leaves_by(0, &request(0x5B, 0x00, bus), 0x5B);
        switch.leaves_by(0, &request(0x45, 0x00, bus), if bus == 0x00 { 0x44 } else { 0x45 });
    }
}
