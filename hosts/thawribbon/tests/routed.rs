//! Packets through a router: what leaves by which port, every length, every bit, and which number is given.
#![forbid(unsafe_code)]

mod common;

use common::switch::{Switch, THREE, TYPES, port, request};
use common::{lent, resized};
use thawribbon::{Port, raw};

/// The packet, which has no fault, is routed by the list as document 02 says.
fn is_routed(switch: &mut Switch, packet: &[u8]) {
    let (byte_0, bus) = (packet[0], packet[8]);
    let ports = switch.ports.part().to_vec();
    let has_bus = |port: &Port| (port.secondary..=port.subordinate).contains(&bus);
    match (byte_0 & 0x3F, ports.iter().position(has_bus)) {
        (0x04, _) => switch.refuses(packet, 4),
        (_, None) => switch.has_no_port(packet),
        (0x1B, Some(place)) if !ports[place].tcs => switch.refuses(packet, 4),
        (0x05, Some(place)) if ports[place].secondary == bus => switch.leaves_by(place, packet, byte_0 - 1),
        (_, Some(place)) => switch.leaves_by(place, packet, byte_0),
    }
}

#[test]
fn one_packet_of_each_kind() {
    let mut switch = Switch::new(&THREE);
    switch.leaves_by(0, &request(0x45, 0x00, 0x05), 0x44);
    switch.leaves_by(0, &request(0x45, 0x00, 0x06), 0x45);
    let mut switch = Switch::new(&THREE);
    switch.leaves_by(2, &request(0x05, 0x00, 0x0A), 0x04);
    switch.leaves_by(2, &request(0x1B, 0x00, 0x0A), 0x1B);
    switch.leaves_by(0, &request(0x5B, 0x80, 0x05), 0x5B);
    let mut switch = Switch::new(&THREE);
    switch.refuses(&request(0x5B, 0x00, 0x08), 4);
    switch.has_no_port(&request(0x45, 0x00, 0x09));
    switch.has_no_port(&request(0x1B, 0x00, 0x04));
    switch.refuses(&request(0x44, 0x00, 0x05), 4);
    switch.leaves_by(1, &request(0x45, 0x00, 0x08), 0x44);
}

#[test]
fn every_bus_with_every_type_also_poisoned_and_with_digest_and_bit_7() {
    for bus in 0..=255 {
        for type_code in TYPES {
            for (bit_7, byte_2) in [(0x00, 0x00), (0x80, 0x40), (0x00, 0x80), (0x80, 0xC0)] {
                is_routed(&mut Switch::new(&THREE), &request(type_code | bit_7, byte_2, bus));
            }
        }
    }
}

#[test]
fn every_first_byte() {
    for byte_0 in 0..=255 {
        let mut switch = Switch::new(&THREE);
        let packet = request(byte_0, 0x00, 0x05);
        let longer = resized(&packet, packet.len() + 4);
        if TYPES.contains(&(byte_0 & 0x7F)) {
            switch.refuses(&longer, 5);
            is_routed(&mut switch, &packet);
        } else {
            switch.refuses(&longer, 4);
            switch.refuses(&packet, 4);
        }
    }
}

/// Each bit of the longest packet, turned: a fixed field is refused, and whatever else it is goes along.
#[test]
fn every_bit_goes_along_or_is_refused() {
    let fixed = |place| [0x00, 0x70, 0x33, 0xFF, 0x00, 0x00, 0x00, 0xF0].get(place).copied();
    for byte_0 in [0x45, 0x5B, 0xDB] {
        for (place, bit) in (1..20).flat_map(|place| (0..8).map(move |bit| (place, 1_u8 << bit))) {
            let mut switch = Switch::new(&THREE);
            let mut packet = request(byte_0, 0x80, 0x05);
            packet[place] ^= bit;
            if (place, bit) == (2, 0x80) {
                switch.refuses(&packet, 5);
            } else if fixed(place).unwrap_or(0x00) & bit != 0 {
                switch.refuses(&packet, 6);
            } else {
                is_routed(&mut switch, &packet);
            }
        }
    }
}

#[test]
fn packets_and_buffers_of_every_length() {
    let lengths = (0..=24).chain([4095, 4096, 4097]);
    for (type_code, byte_2) in TYPES.into_iter().flat_map(|code| [(code, 0x00), (code, 0x80)]) {
        let whole = request(type_code, byte_2, 0x05);
        for (length, room) in lengths
            .clone()
            .flat_map(|length| (0..=24).map(move |room| (length, room)))
        {
            let mut switch = Switch::new(&THREE);
            switch.leaving = lent(&vec![0xEE; room]);
            let packet = resized(&whole, length);
            match length {
                _ if room < 20 => switch.refuses(&packet, 2),
                0..12 => switch.refuses(&packet, 3),
                _ if length != whole.len() => switch.refuses(&packet, 5),
                _ => is_routed(&mut switch, &packet),
            }
        }
    }
}

/// The causes of 1 to 6 on one call, each there or not: the first is given. Then 4 for what is not passed on, and then
/// no port has the bus.
#[test]
fn the_first_number_is_given() {
    for causes in 0..64 {
        for (type_code, bus) in TYPES
            .into_iter()
            .flat_map(|code| [(code, 0x05), (code, 0x08), (code, 0xFF)])
        {
            let applies = |number: u32| causes >> (number - 1) & 1 == 1;
            let meeting = [port(0x05, 0x08, true), port(0x08, 0x09, true)];
            let mut switch = Switch::new(if applies(1) { &meeting } else { &THREE });
            let mut packet = request(if applies(4) { 0x00 } else { type_code }, 0x00, bus);
            if applies(2) {
                switch.leaving = lent(&[0xEE; 19]);
            }
            if applies(6) {
                packet[7] = 0x1F;
            }
            if applies(5) {
                packet.push(0);
            }
            if applies(3) {
                packet.truncate(11);
            }
            match (1..=6).find(|&number| applies(number)) {
                Some(first) => switch.refuses(&packet, first as u8),
                None => is_routed(&mut switch, &packet),
            }
        }
    }
}

#[test]
fn nothing_but_empty_slices() {
    let refused = |number| raw::Routed {
        number,
        ..raw::Routed::default()
    };
    assert_eq!(raw::route(&[], &[], &mut []), refused(2));
    assert_eq!(raw::route(&[], &[], &mut [0; 20]), refused(3));
    Switch::new(&[]).has_no_port(&request(0x45, 0x00, 0x05));
}
