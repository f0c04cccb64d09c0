//! Wrong ways to write what leaves a router, and to tell of it.

use thawribbon::raw::{Port, Routed};

use crate::harness::Wrong;
use crate::router::{
    TRUSTED, TYPE_1, expect_router_caught, first_match, is_of, or_else, rehearsed, with_leaving, with_told,
};

fn is_at_secondary(packet: &[u8], port: &Port) -> bool {
    packet[8] == port.secondary
}

/// Writes the packet before the verdict, where that is told by one of these numbers and nothing leaves.
fn writes_before(numbers: &'static [u8]) -> Wrong {
    or_else(|_, packet, leaving, routed| {
        if routed.leaves == 0 && numbers.contains(&routed.number) {
            let length = packet.len().min(leaving.len());
            leaving[..length].copy_from_slice(&packet[..length]);
        }
        None
    })
}

#[test]
fn written_before_a_refusal() {
    for numbers in [&[1], &[2], &[3], &[4], &[5], &[6]] {
        expect_router_caught(writes_before(numbers));
    }
}

#[test]
fn written_before_the_verdict_ur() {
    expect_router_caught(writes_before(&[0]));
}

#[test]
fn the_buffer_cleared_first() {
    expect_router_caught(or_else(|_, _, leaving, routed| {
        if routed.number == 0 {
            leaving.fill(0);
        }
        None
    }));
}

#[test]
fn bytes_past_the_packet_overwritten() {
    expect_router_caught(Wrong::route(|ports, packet, leaving| {
        let (routed, copy) = rehearsed(ports, packet, leaving);
        leaving.copy_from_slice(&copy);
        if routed.leaves == 1 {
            leaving[routed.length..20].fill(0);
        }
        routed
    }));
}

#[test]
fn a_trusted_packet_changed_to_another_type() {
    let at_secondary = |packet: &[u8], port: &Port| is_of(packet, TRUSTED) && is_at_secondary(packet, port);
    expect_router_caught(with_leaving(move |packet, port, leaving| {
        if at_secondary(packet, port) {
            leaving[0] &= !1;
        }
    }));
    expect_router_caught(with_leaving(move |packet, port, leaving| {
        if at_secondary(packet, port) {
            leaving[0] = packet[0] & 0xC0 | 0x04;
        }
    }));
    expect_router_caught(with_leaving(|packet, _, leaving| {
        if is_of(packet, TRUSTED) {
            leaving[0] = packet[0] & 0xC0 | 0x05;
        }
    }));
}

#[test]
fn type_1_at_a_secondary_not_changed() {
    expect_router_caught(with_leaving(|packet, _, leaving| leaving[0] = packet[0]));
}

#[test]
fn type_1_at_a_secondary_not_changed_where_it_is_the_only_bus() {
    expect_router_caught(with_leaving(|packet, port, leaving| {
        if port.secondary == port.subordinate {
            leaving[0] = packet[0];
        }
    }));
}

#[test]
fn type_1_inside_the_range_changed() {
    expect_router_caught(with_leaving(|packet, _, leaving| {
        if is_of(packet, TYPE_1) {
            leaving[0] &= !1;
        }
    }));
}

#[test]
fn type_1_at_a_subordinate_changed() {
    expect_router_caught(with_leaving(|packet, port, leaving| {
        if is_of(packet, TYPE_1) && packet[8] == port.subordinate {
            leaving[0] &= !1;
        }
    }));
}

#[test]
fn type_1_beside_a_secondary_changed() {
    expect_router_caught(with_leaving(|packet, port, leaving| {
        if is_of(packet, TYPE_1) && packet[8] <= port.secondary.saturating_add(1) {
            leaving[0] &= !1;
        }
    }));
}

/// A change that loses some bits of a byte of what leaves.
fn loses(place: usize, bits: u8) -> Wrong {
    with_leaving(move |_, _, leaving| leaving[place] &= !bits)
}

#[test]
fn bit_7_lost_in_the_change() {
    expect_router_caught(with_leaving(|packet, port, leaving| {
        if is_of(packet, TYPE_1) && is_at_secondary(packet, port) {
            leaving[0] &= 0x7F;
        }
    }));
}

#[test]
fn the_write_bit_lost_in_the_change() {
    expect_router_caught(with_leaving(|packet, port, leaving| {
        if is_of(packet, TYPE_1) && is_at_secondary(packet, port) {
            leaving[0] = packet[0] & 0x80 | 0x04;
        }
    }));
}

pub fn with_poison_lost() -> Wrong {
    loses(2, 0x40)
}

#[test]
fn poison_lost() {
    expect_router_caught(with_poison_lost());
}

#[test]
fn the_digest_bit_lost() {
    expect_router_caught(loses(2, 0x80));
}

#[test]
fn each_reserved_bit_lost() {
    for (place, reserved) in [(0, 0x80), (1, 0x8F), (2, 0x0C), (10, 0xF0), (11, 0x03)] {
        for bit in (0..8).filter(|bit| reserved >> bit & 1 == 1) {
            expect_router_caught(loses(place, 1 << bit));
        }
    }
}

#[test]
fn each_byte_of_a_packet_lost() {
    for place in 0..20 {
        expect_router_caught(with_leaving(move |_, _, leaving| {
            if let Some(byte) = leaving.get_mut(place) {
                *byte = 0;
            }
        }));
    }
}

#[test]
fn the_digest_not_passed_on() {
    expect_router_caught(with_told(|_, packet, routed| Routed {
        length: routed.length - 4 * usize::from(packet[2] >> 7),
        ..routed
    }));
}

#[test]
fn the_buffers_20_bytes_told_as_the_length() {
    expect_router_caught(with_told(|_, _, routed| Routed { length: 20, ..routed }));
}

#[test]
fn another_port_told() {
    expect_router_caught(with_told(|_, _, routed| Routed {
        port: routed.port + 1,
        ..routed
    }));
    expect_router_caught(with_told(|_, _, routed| Routed { port: 0, ..routed }));
    expect_router_caught(with_told(|ports, _, routed| Routed {
        port: ports.len() as u8 - 1 - routed.port,
        ..routed
    }));
}

#[test]
fn the_ports_place_among_the_sorted_told() {
    expect_router_caught(with_told(|ports, _, routed| {
        let chosen = ports[usize::from(routed.port)];
        let lower = ports.iter().filter(|port| port.secondary < chosen.secondary).count();
        Routed {
            port: lower as u8,
            ..routed
        }
    }));
}

#[test]
fn the_ports_secondary_told_for_its_place() {
    expect_router_caught(with_told(|ports, _, routed| Routed {
        port: ports[usize::from(routed.port)].secondary,
        ..routed
    }));
}

#[test]
fn ur_told_as_leaving() {
    expect_router_caught(or_else(|_, _, _, routed| {
        let unsupported = routed.number == 0 && routed.leaves == 0;
        unsupported.then_some(Routed { leaves: 1, ..routed })
    }));
}

#[test]
fn leaving_not_told() {
    expect_router_caught(with_told(|_, _, routed| Routed { leaves: 0, ..routed }));
}

#[test]
fn a_port_or_a_length_told_with_a_refusal() {
    let is_own_4 = |ports: &[Port], packet: &[u8], routed: Routed| {
        let refused = routed.number == 4 && is_of(packet, TRUSTED);
        first_match(ports, packet).filter(|_| refused)
    };
    expect_router_caught(or_else(move |ports, packet, _, routed| {
        let place = is_own_4(ports, packet, routed)?;
        Some(Routed {
            port: place as u8,
            ..routed
        })
    }));
    expect_router_caught(or_else(move |ports, packet, _, routed| {
        is_own_4(ports, packet, routed)?;
        Some(Routed {
            length: packet.len(),
            ..routed
        })
    }));
}
