//! Wrong orders of the router's checks, and wrong bounds in them.

use second::compare::{Reference, Subject};
use thawribbon::raw::{Port, Routed};

use crate::harness::{Wrong, expect_not_caught};
use crate::router::{TRUSTED, TYPE_0, TYPE_1, UNSUPPORTED, expect_router_caught, first_match, is_of, or_else, refused};

/// The model's answer to a packet where the list is the empty one, or where there is room enough, or both.
fn without(list: bool, room: bool, ports: &[Port], packet: &[u8], leaving: &[u8]) -> Routed {
    let ports = if list { &[] } else { ports };
    let mut copy = leaving.to_vec();
    if room {
        copy.resize(20, 0);
    }
    Reference.route(ports, packet, &mut copy)
}

/// The number that a packet has by document 01 alone: 0 or 3 to 6.
fn packets_own(packet: &[u8]) -> u8 {
    let mut type_1 = packet.to_vec();
    if is_of(packet, TYPE_0) {
        type_1[0] |= 1;
    }
    without(true, true, &[], &type_1, &[]).number
}

#[test]
fn the_buffer_tested_before_the_list() {
    expect_router_caught(or_else(|_, _, leaving, routed| {
        (routed.number == 1 && leaving.len() < 20).then_some(refused(2))
    }));
}

#[test]
fn the_packet_tested_before_the_list() {
    for number in 3..=6 {
        expect_router_caught(or_else(move |_, packet, _, routed| {
            (routed.number == 1 && packets_own(packet) == number).then_some(refused(number))
        }));
    }
}

#[test]
fn the_packet_tested_before_the_buffer() {
    for number in 3..=6 {
        expect_router_caught(or_else(move |_, packet, _, routed| {
            (routed.number == 2 && packets_own(packet) == number).then_some(refused(number))
        }));
    }
}

#[test]
fn type_0_tested_before_the_list_or_the_buffer() {
    for earlier in [1, 2] {
        expect_router_caught(or_else(move |_, packet, _, routed| {
            (routed.number == earlier && is_of(packet, TYPE_0)).then_some(refused(4))
        }));
    }
}

#[test]
fn a_list_judged_only_for_a_packet_that_could_leave() {
    expect_router_caught(or_else(|ports, packet, leaving, routed| {
        let later = without(true, false, ports, packet, leaving);
        (routed.number == 1 && later.number != 0).then_some(later)
    }));
}

#[test]
fn a_small_buffer_refused_only_for_a_packet_that_leaves() {
    expect_router_caught(or_else(|ports, packet, leaving, routed| {
        let later = without(false, true, ports, packet, leaving);
        (routed.number == 2 && later.leaves == 0).then_some(later)
    }));
    expect_router_caught(or_else(|ports, packet, leaving, routed| {
        let later = without(false, true, ports, packet, leaving);
        (routed.number == 2 && later == UNSUPPORTED).then_some(UNSUPPORTED)
    }));
}

/// Routes by the model where another bound says that there is room, and copies what there is room for.
fn with_room(is_enough: impl Fn(&[u8], usize) -> bool + 'static) -> Wrong {
    or_else(move |ports, packet, leaving, routed| {
        if routed.number == 1 || !is_enough(packet, leaving.len()) {
            return (routed.number != 1).then_some(refused(2));
        }
        let mut longer = leaving.to_vec();
        longer.resize(leaving.len().max(20), 0);
        let routed = Reference.route(ports, packet, &mut longer);
        let length = leaving.len();
        leaving.copy_from_slice(&longer[..length]);
        Some(routed)
    })
}

#[test]
fn a_bound_of_20_bytes_is_not_caught() {
    expect_not_caught(with_room(|_, length| length >= 20));
}

#[test]
fn room_for_the_packet_itself_taken_for_enough() {
    expect_router_caught(with_room(|packet, length| length >= packet.len()));
}

#[test]
fn room_for_the_packets_type_taken_for_enough() {
    expect_router_caught(with_room(|packet, length| {
        let writes = packet.first().is_some_and(|first| first & 0x40 != 0);
        length >= 16 + 4 * usize::from(writes)
    }));
}

#[test]
fn another_bound_for_the_buffer() {
    expect_router_caught(with_room(|_, length| length >= 16));
    expect_router_caught(with_room(|_, length| length >= 19));
    expect_router_caught(with_room(|_, length| length >= 21));
    expect_router_caught(with_room(|packet, length| length >= 20 && length >= packet.len()));
}

/// A packet of 9 to 11 bytes has a bus, and a shorter one none.
#[test]
fn the_bus_read_from_a_short_packet() {
    expect_router_caught(or_else(|ports, packet, _, routed| {
        let no_port = routed.number == 3 && packet.len() > 8 && first_match(ports, packet).is_none();
        no_port.then_some(UNSUPPORTED)
    }));
    expect_router_caught(or_else(|ports, packet, _, routed| {
        let no_bus = routed.number == 3 && first_match(ports, packet).is_none();
        no_bus.then_some(UNSUPPORTED)
    }));
}

#[test]
fn the_type_read_from_a_short_packet() {
    expect_router_caught(or_else(|_, packet, _, routed| {
        let type_0 = packet.first().is_some_and(|first| TYPE_0.contains(&(first & 0x7F)));
        (routed.number == 3 && type_0).then_some(refused(4))
    }));
    expect_router_caught(or_else(|_, packet, _, routed| {
        (routed.number == 3 && packet.is_empty()).then_some(UNSUPPORTED)
    }));
}

/// Whether a packet is trusted and for a port that does not support it.
fn is_not_supported(ports: &[Port], packet: &[u8]) -> bool {
    let port = first_match(ports, packet).map(|place| ports[place]);
    is_of(packet, TRUSTED) && port.is_some_and(|port| !port.tcs)
}

#[test]
fn tcs_routing_tested_before_the_packet() {
    for later in [5, 6] {
        expect_router_caught(or_else(move |ports, packet, _, routed| {
            (routed.number == later && is_not_supported(ports, packet)).then_some(refused(4))
        }));
    }
}

#[test]
fn type_0_tested_before_the_packet() {
    for later in [5, 6] {
        expect_router_caught(or_else(move |_, packet, _, routed| {
            (routed.number == later && is_of(packet, TYPE_0)).then_some(refused(4))
        }));
    }
}

#[test]
fn the_port_looked_for_before_the_packet_is_tested() {
    for later in [4, 5, 6] {
        expect_router_caught(or_else(move |ports, packet, _, routed| {
            let own = is_of(packet, TYPE_0) || is_not_supported(ports, packet);
            let no_port = routed.number == later && !own && first_match(ports, packet).is_none();
            no_port.then_some(UNSUPPORTED)
        }));
    }
}

#[test]
fn a_length_that_does_not_fit_let_through() {
    expect_router_caught(or_else(|ports, packet, leaving, routed| {
        let writes = is_of(packet, [0x45, 0x5B]);
        let right = 12 + 4 * usize::from(writes);
        if routed.number != 5 || packet[2] & 0x80 == 0 || packet.len() != right {
            return None;
        }
        let mut other = packet.to_vec();
        other[2] &= 0x7F;
        let routed = Reference.route(ports, &other, leaving);
        if routed.leaves == 1 {
            leaving[2] = packet[2];
        }
        Some(routed)
    }));
}

/// A router has no use for TC, Attr, Length and last enables, but document 01's checks come first.
#[test]
fn fixed_fields_not_tested_by_the_router() {
    for (place, bits) in [(1, 0x70), (2, 0x30), (2, 0x03), (3, 0xFE), (7, 0xF0)] {
        expect_router_caught(or_else(move |ports, packet, leaving, routed| {
            if routed.number != 6 {
                return None;
            }
            let mut other = packet.to_vec();
            other[place] &= !bits;
            let routed = Reference.route(ports, &other, leaving);
            if routed.leaves == 1 {
                leaving[place] = packet[place];
            }
            Some(routed)
        }));
    }
}

#[test]
fn fixed_fields_tested_before_the_length_by_the_router() {
    expect_router_caught(or_else(|_, packet, _, routed| {
        let field = routed.number == 5 && (packet[1] & 0x70 != 0 || packet[3] != 1 || packet[7] & 0xF0 != 0);
        (field && is_of(packet, TYPE_1)).then_some(refused(6))
    }));
}
