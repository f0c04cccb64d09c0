//! Request 1/13, sentence by sentence, on the model: a backplane of three ports, and packets of every kind for it.

use super::{Port, Routed, route};

/// Four buses with TCS routing, four without, and one bus alone with it. Beside each range are buses of no port.
const PORTS: [Port; 3] = [port(0x20, 0x23, true), port(0x10, 0x13, false), port(0x30, 0x30, true)];
/// What the buffer is filled with before it is lent.
const LENT: u8 = 0xEE;
const UNSUPPORTED: Routed = Routed {
    number: 0,
    port: None,
    length: 0,
};

const fn port(secondary: u8, subordinate: u8, tcs: bool) -> Port {
    Port {
        secondary,
        subordinate,
        tcs,
    }
}

const fn refused(number: u8) -> Routed {
    Routed { number, ..UNSUPPORTED }
}

/// A packet of a first byte, for a bus, with these bits of byte 2. Reserved bits of all other bytes are set.
fn packet(first: u8, bus: u8, bits: u8) -> Vec<u8> {
    let mut bytes = vec![first, 0x8F, bits, 1, 0xA4, 0xA5, 0xA6, 0x0F, bus, 0xA9, 0xFA, 0xAB];
    let tails = usize::from(first >> 6 & 1) + usize::from(bits >> 7);
    bytes.extend((0..4 * tails).map(|place| 0xB0 | place as u8));
    bytes
}

/// Routes a packet with a buffer of so many bytes, and answers what is written there. The rest has to stay.
fn routed(ports: &[Port], packet: &[u8], room: usize) -> (Routed, Vec<u8>) {
    let mut leaving = vec![LENT; room];
    let routed = route(ports, packet, &mut leaving);
    assert!(
        leaving[routed.length..].iter().all(|&byte| byte == LENT),
        "{packet:02x?}"
    );
    leaving.truncate(routed.length);
    (routed, leaving)
}

/// The forms of byte 2: digest and poison, each with and without the reserved bits.
const FORMS: [u8; 6] = [0x00, 0x40, 0x80, 0xC0, 0x0C, 0xCC];

/// Each packet of a type code for each bus, with bit 7 and without, in every form.
fn each(code: u8, mut see: impl FnMut(u8, Vec<u8>)) {
    for bus in 0..=255 {
        for bits in FORMS {
            see(bus, packet(code, bus, bits));
            see(bus, packet(code | 0x80, bus, bits));
        }
    }
}

/// The place of the port that a bus belongs to, read from the list by eye.
const fn place(bus: u8) -> Option<u8> {
    match bus {
        0x20..=0x23 => Some(0),
        0x10..=0x13 => Some(1),
        0x30 => Some(2),
        _ => None,
    }
}

fn leaves(port: u8, packet: &[u8]) -> Routed {
    Routed {
        number: 0,
        port: Some(port),
        length: packet.len(),
    }
}

#[test]
fn a_type_1_request_leaves_as_type_0_at_a_secondary_and_unchanged_inside_the_range() {
    for code in [0x05, 0x45] {
        each(code, |bus, packet| {
            let Some(place) = place(bus) else {
                return assert_eq!(routed(&PORTS, &packet, 20), (UNSUPPORTED, Vec::new()));
            };
            let mut expected = packet.clone();
            if matches!(bus, 0x10 | 0x20 | 0x30) {
                expected[0] -= 1;
            }
            assert_eq!(routed(&PORTS, &packet, 20), (leaves(place, &packet), expected));
        });
    }
}

#[test]
fn a_trusted_request_leaves_unchanged_where_the_port_supports_it() {
    for code in [0x1B, 0x5B] {
        each(code, |bus, packet| {
            let expected = match place(bus) {
                None => (UNSUPPORTED, Vec::new()),
                Some(1) => (refused(4), Vec::new()),
                Some(place) => (leaves(place, &packet), packet.clone()),
            };
            assert_eq!(routed(&PORTS, &packet, 20), expected);
        });
    }
}

#[test]
fn type_0_at_the_router_is_4_for_every_bus() {
    for code in [0x04, 0x44] {
        each(code, |_, packet| {
            assert_eq!(routed(&PORTS, &packet, 20), (refused(4), Vec::new()));
            assert_eq!(routed(&[], &packet, 20), (refused(4), Vec::new()));
        });
    }
}

#[test]
fn without_a_port_every_other_request_gets_unsupported() {
    for code in [0x05, 0x45, 0x1B, 0x5B] {
        each(code, |_, packet| {
            assert_eq!(routed(&[], &packet, 20), (UNSUPPORTED, Vec::new()));
        });
    }
}

/// Packets that leave, get UR, and are refused with 4, 4, 3, 4, 5 and 6, by what they are without a fault before.
fn packets_of_all_kinds() -> Vec<(Vec<u8>, u8)> {
    let mut field = packet(0x05, 0x20, 0x00);
    field[7] = 0x1F;
    vec![
        (packet(0x05, 0x20, 0x00), 0),
        (packet(0x5B, 0x22, 0x80), 0),
        (packet(0x05, 0x40, 0x00), 0),
        (packet(0x04, 0x20, 0x00), 4),
        (packet(0x1B, 0x12, 0x00), 4),
        (packet(0x05, 0x20, 0x00)[..11].to_vec(), 3),
        (Vec::new(), 3),
        (packet(0x06, 0x20, 0x00), 4),
        (packet(0x45, 0x20, 0x80)[..16].to_vec(), 5),
        (field, 6),
    ]
}

#[test]
fn a_buffer_under_20_bytes_is_2_whatever_the_packet() {
    for (packet, number) in packets_of_all_kinds() {
        for room in 0..20 {
            assert_eq!(routed(&PORTS, &packet, room), (refused(2), Vec::new()));
        }
        for room in 20..=24 {
            assert_eq!(routed(&PORTS, &packet, room).0.number, number, "{packet:02x?}");
        }
    }
}

#[test]
fn a_bad_list_is_1_whatever_the_packet_and_the_buffer() {
    let meeting = [PORTS[0], port(0x23, 0x23, true)];
    let over = [PORTS[1], port(0x31, 0x30, true)];
    let many: Vec<Port> = (0..33).map(|bus| port(bus, bus, true)).collect();
    for (packet, _) in packets_of_all_kinds() {
        for room in [0, 19, 20] {
            for ports in [&meeting[..], &over, &many] {
                assert_eq!(routed(ports, &packet, room), (refused(1), Vec::new()));
            }
        }
    }
}

/// A packet that is 4 for its type or for its port, or gets UR, has its length and its fixed fields tested before.
#[test]
fn document_01s_checks_come_before_the_routers() {
    for (code, bus) in [(0x04, 0x20), (0x1B, 0x12), (0x05, 0x40), (0x44, 0x40), (0x5B, 0x12)] {
        let mut longer = packet(code, bus, 0x00);
        longer.push(0);
        assert_eq!(routed(&PORTS, &longer, 20), (refused(5), Vec::new()));
        for (byte, bits) in [(1, 0x10), (2, 0x20), (3, 0x03), (7, 0x80)] {
            let mut other = packet(code, bus, 0x00);
            other[byte] |= bits;
            assert_eq!(routed(&PORTS, &other, 20), (refused(6), Vec::new()));
        }
    }
}
