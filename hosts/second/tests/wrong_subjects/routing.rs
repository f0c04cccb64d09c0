//! Wrong ways to find the port of a packet, and to decide whether it leaves.

use second::compare::{Reference, Subject};
use thawribbon::raw::Port;

use crate::harness::{Wrong, expect_not_caught};
use crate::router::{
    TRUSTED, TYPE_0, TYPE_1, UNSUPPORTED, by_place, expect_router_caught, first_match, has, is_of, or_else, refused,
};

/// Looks for the port of a packet that is not refused by another test. One that is found so and does not have the bus
/// is taken to have them all.
fn found_by(finds: impl Fn(&Port, u8) -> bool + 'static) -> Wrong {
    or_else(move |ports, packet, leaving, routed| {
        if routed.number != 0 {
            return None;
        }
        let place = ports.iter().position(|port| finds(port, packet[8]));
        let mut ports = ports.to_vec();
        if let Some(place) = place.filter(|&place| !has(&ports[place], packet[8])) {
            (ports[place].secondary, ports[place].subordinate) = (0, 255);
        }
        Some(by_place(&ports, place, packet, leaving))
    })
}

#[test]
fn ports_found_by_their_ranges_are_not_caught() {
    expect_not_caught(found_by(has));
}

#[test]
fn an_end_of_a_range_left_out() {
    expect_router_caught(found_by(|port, bus| port.secondary < bus && bus <= port.subordinate));
    expect_router_caught(found_by(|port, bus| port.secondary <= bus && bus < port.subordinate));
}

#[test]
fn only_the_ends_of_a_range_looked_at() {
    expect_router_caught(found_by(|port, bus| bus == port.secondary || bus == port.subordinate));
    expect_router_caught(found_by(|port, bus| bus == port.secondary));
}

#[test]
fn a_bus_beside_a_range_taken() {
    expect_router_caught(found_by(|port, bus| {
        has(port, bus) || Some(bus) == port.secondary.checked_sub(1)
    }));
    expect_router_caught(found_by(|port, bus| {
        has(port, bus) || Some(bus) == port.subordinate.checked_add(1)
    }));
}

#[test]
fn a_bus_compared_as_a_signed_number() {
    expect_router_caught(found_by(|port, bus| {
        port.secondary as i8 <= bus as i8 && bus as i8 <= port.subordinate as i8
    }));
}

#[test]
fn a_width_of_eight_bits() {
    expect_router_caught(found_by(|port, bus| {
        let width = port.subordinate.wrapping_sub(port.secondary).wrapping_add(1);
        bus.wrapping_sub(port.secondary) < width
    }));
}

/// One port of a list, by its place and the list's length, is never found.
fn expect_caught_passing_over(is_passed_over: fn(usize, usize) -> bool) {
    expect_router_caught(or_else(move |ports, packet, _, routed| {
        let place = first_match(ports, packet)?;
        let passed = routed.leaves == 1 && is_passed_over(place, ports.len());
        passed.then_some(UNSUPPORTED)
    }));
}

#[test]
fn one_port_passed_over() {
    expect_caught_passing_over(|place, _| place == 0);
    expect_caught_passing_over(|place, length| place + 1 == length);
    expect_caught_passing_over(|place, _| place == 31);
    expect_caught_passing_over(|place, length| place == 15 && length == 16);
}

/// The bus is read from another byte of the packet.
fn expect_caught_reading_bus_from(place: usize) {
    expect_router_caught(or_else(move |ports, packet, leaving, routed| {
        if routed.number != 0 {
            return None;
        }
        let bus = packet[place];
        let chosen = ports.iter().position(|port| has(port, bus));
        let mut other = packet.to_vec();
        other[8] = bus;
        let routed = by_place(ports, chosen, &other, leaving);
        if routed.leaves == 1 {
            leaving[8] = packet[8];
        }
        Some(routed)
    }));
}

#[test]
fn the_bus_read_from_another_byte() {
    for place in [4, 7, 9] {
        expect_caught_reading_bus_from(place);
    }
}

#[test]
fn type_0_let_through() {
    expect_router_caught(or_else(|ports, packet, leaving, routed| {
        if routed.number != 4 || !is_of(packet, TYPE_0) {
            return None;
        }
        let mut other = packet.to_vec();
        other[0] |= 1;
        let routed = Reference.route(ports, &other, leaving);
        if routed.leaves == 1 {
            leaving[0] = packet[0];
        }
        Some(routed)
    }));
}

#[test]
fn type_0_for_a_bus_of_no_port_given_ur() {
    expect_router_caught(or_else(|ports, packet, _, routed| {
        let type_0 = routed.number == 4 && is_of(packet, TYPE_0);
        (type_0 && first_match(ports, packet).is_none()).then_some(UNSUPPORTED)
    }));
}

#[test]
fn type_0_given_ur() {
    expect_router_caught(or_else(|_, packet, _, routed| {
        (routed.number == 4 && is_of(packet, TYPE_0)).then_some(UNSUPPORTED)
    }));
}

/// Routes with a list whose ports' support is changed, by the packet and the port's place.
fn with_support(change: impl Fn(&[Port], &[u8], &Port) -> bool + 'static) -> Wrong {
    Wrong::route(move |ports, packet, leaving| {
        let changed = |port: &Port| Port {
            tcs: change(ports, packet, port),
            ..*port
        };
        let ports: Vec<Port> = ports.iter().map(changed).collect();
        Reference.route(&ports, packet, leaving)
    })
}

#[test]
fn tcs_routing_ignored() {
    expect_router_caught(with_support(|_, _, _| true));
    expect_router_caught(with_support(|_, packet, port| port.tcs || is_of(packet, [0x1B; 2])));
    expect_router_caught(with_support(|_, packet, port| port.tcs || is_of(packet, [0x5B; 2])));
    expect_router_caught(with_support(|_, _, port| {
        port.tcs || port.secondary == port.subordinate
    }));
}

#[test]
fn tcs_routing_of_another_port_looked_at() {
    expect_router_caught(with_support(|ports, _, _| ports[0].tcs));
    expect_router_caught(with_support(|ports, _, _| ports.iter().any(|port| port.tcs)));
    expect_router_caught(with_support(|ports, _, _| ports.iter().all(|port| port.tcs)));
}

#[test]
fn tcs_routing_turned_round() {
    expect_router_caught(with_support(|_, _, port| !port.tcs));
}

#[test]
fn tcs_routing_wanted_of_type_1_too() {
    expect_router_caught(or_else(|ports, packet, _, routed| {
        let without = routed.leaves == 1 && is_of(packet, TYPE_1) && !ports[usize::from(routed.port)].tcs;
        without.then_some(refused(4))
    }));
}

#[test]
fn a_trusted_request_without_tcs_routing_given_ur() {
    expect_router_caught(or_else(|_, packet, _, routed| {
        (routed.number == 4 && is_of(packet, TRUSTED)).then_some(UNSUPPORTED)
    }));
}

#[test]
fn a_trusted_request_for_a_bus_of_no_port_refused() {
    expect_router_caught(or_else(|_, packet, _, routed| {
        (routed == UNSUPPORTED && is_of(packet, TRUSTED)).then_some(refused(4))
    }));
}

#[test]
fn a_type_1_request_for_a_bus_of_no_port_let_through() {
    expect_router_caught(or_else(|ports, packet, leaving, routed| {
        if routed != UNSUPPORTED || !is_of(packet, TYPE_1) || ports.is_empty() {
            return None;
        }
        let all = Port {
            secondary: 0,
            subordinate: 255,
            tcs: true,
        };
        Some(Reference.route(&[all], packet, leaving))
    }));
}

#[test]
fn every_packet_given_ur() {
    expect_router_caught(or_else(|_, _, _, routed| (routed.number == 0).then_some(UNSUPPORTED)));
}

/// What a board does with a poisoned write is no matter of the router.
#[test]
fn a_poisoned_write_given_ur() {
    expect_router_caught(or_else(|_, packet, _, routed| {
        let poisoned = routed.leaves == 1 && packet[0] & 0x40 != 0 && packet[2] & 0x40 != 0;
        poisoned.then_some(UNSUPPORTED)
    }));
}

#[test]
fn bit_7_of_the_first_byte_not_ignored_by_the_router() {
    expect_router_caught(or_else(|_, packet, _, routed| {
        (routed.number == 0 && packet[0] & 0x80 != 0).then_some(refused(4))
    }));
}
