//! The two editions of byte 0: every type code with bit 7 clear and set, what comes before bit 7 and what behind it, and
//! numbers that are no edition.
#![forbid(unsafe_code)]

mod common;

use common::switch::{TYPES, request};
use common::{Bench, SPACE, TRUSTED_READ, WRITE, WRITTEN, lengths, lent, option, resized};
use thawribbon::{Capture, EDITION_1, EDITION_2, raw};

const FIVE_THREE: Option<Capture> = Some(Capture { bus: 0x05, device: 3 });
const EDITIONS: [u32; 2] = [EDITION_1, EDITION_2];
const BIT_7: u8 = 0x80;

/// Numbers that are no edition: those about the ends of a byte, of 16 bits and of 32, and the two editions with a bit more.
fn none() -> impl Iterator<Item = u32> {
    let with_a_bit_more = (2..u32::BITS).flat_map(|bit| [0, 1, 2, 3].map(|low| 1 << bit | low));
    [0, 3, 255, 256 + 1, 256 + 2, 0xFFFF, u32::MAX - 1, u32::MAX]
        .into_iter()
        .chain(with_a_bit_more)
}

/// Each edition with each type code.
fn each_type() -> impl Iterator<Item = (u32, u8)> {
    EDITIONS
        .into_iter()
        .flat_map(|edition| TYPES.map(|code| (edition, code)))
}

/// A board of this edition.
fn of(edition: u32, mut bench: Bench) -> Bench {
    bench.description.edition = edition;
    bench
}

/// Whether an edition refuses a packet of 12 bytes or more for its bit 7.
fn refuses_bit_7(edition: u32, packet: &[u8]) -> bool {
    edition == EDITION_2 && packet[0] & BIT_7 != 0
}

/// A packet without a fault, for function 0 at 004h, is served as document 01 says of its byte 0 without bit 7.
fn is_served(bench: &mut Bench, packet: &[u8]) {
    let (code, poisoned) = (packet[0] & 0x7F, packet[2] & 0x40 != 0);
    let (trusted, writes) = (code & 0x3F == 0x1B, code & 0x40 != 0);
    let has_captured = bench.kept.captured != 0;
    let done = code & 0x3F != 0x05 && (has_captured || !trusted) && !(writes && poisoned);
    let after = if done && code == 0x44 {
        FIVE_THREE
    } else {
        option(bench.kept)
    };
    let space = if trusted {
        &mut bench.trusted
    } else {
        &mut bench.ordinary
    };
    let [bus, second] = after.map_or([0; 2], |Capture { bus, device }| [bus, device * 8]);
    let status = if done { 0x00 } else { 0x20 };
    let mut completion = vec![0x0A, 0, 0, 0, bus, second, status, 4, 1, 0, 7, 0];
    if done && writes {
        space.expect(0x004, &[0x11, 0x22, 0x33, 0x44]);
    } else if done {
        (completion[0], completion[3]) = (0x4A, 1);
        completion.extend(&space.part()[0x004..0x008]);
    }
    bench.answers(packet, &completion, after);
}

#[test]
fn every_type_code_with_bit_7_clear_and_set() {
    for (edition, code) in each_type() {
        for bench in [Bench::fresh(), Bench::captured()] {
            for (bit_7, byte_2) in [0, BIT_7]
                .into_iter()
                .flat_map(|bit| [0x00, 0x40, 0x80, 0xC0].map(|two| (bit, two)))
            {
                let mut bench = of(edition, bench.clone());
                let packet = request(code | bit_7, byte_2, 0x05);
                if refuses_bit_7(edition, &packet) {
                    bench.refuses(&packet, 4);
                    is_served(&mut bench, &request(code, byte_2, 0x05));
                } else {
                    is_served(&mut bench, &packet);
                }
            }
        }
    }
}

#[test]
fn every_byte_0() {
    for (edition, byte_0) in EDITIONS
        .into_iter()
        .flat_map(|edition| (0..=255).map(move |byte| (edition, byte)))
    {
        let mut bench = of(edition, Bench::captured());
        let packet = request(byte_0, 0x00, 0x05);
        let longer = resized(&packet, packet.len() + 4);
        if TYPES.contains(&(byte_0 & 0x7F)) && !refuses_bit_7(edition, &packet) {
            bench.refuses(&longer, 5);
            is_served(&mut bench, &packet);
        } else {
            bench.refuses(&longer, 4);
            bench.refuses(&packet, 4);
        }
    }
}

#[test]
fn under_12_bytes_bit_7_does_not_count() {
    for (edition, code) in each_type() {
        let mut bench = of(edition, Bench::captured());
        for length in 0..12 {
            bench.refuses(&request(code | BIT_7, 0x00, 0x05)[..length], 3);
            bench.refuses(&vec![0xFF; length], 3);
        }
    }
}

/// A packet with bit 7 set and another fault, of this number: edition 2 gives 4, and edition 1 that number. Without bit 7
/// both give that number.
fn has_two_faults(mut packet: Vec<u8>, number: u8) {
    for edition in EDITIONS {
        packet[0] |= BIT_7;
        let mut bench = of(edition, Bench::captured());
        bench.refuses(&packet, if edition == EDITION_2 { 4 } else { number });
        packet[0] &= !BIT_7;
        bench.refuses(&packet, number);
    }
}

#[test]
fn bit_7_comes_before_another_length() {
    for packet in TYPES.map(|code| request(code, 0x00, 0x05)) {
        for length in lengths().filter(|&length| length >= 12 && length != packet.len()) {
            has_two_faults(resized(&packet, length), 5);
        }
    }
}

/// Each bit of TC, Attr, Length and the last enables, turned.
#[test]
fn bit_7_comes_before_another_field() {
    let fixed = [(1, 0x70), (2, 0x33), (3, 0xFF), (7, 0xF0)];
    for (packet, (place, bits)) in TYPES
        .map(|code| request(code, 0x00, 0x05))
        .into_iter()
        .flat_map(|packet| fixed.map(|field| (packet.clone(), field)))
    {
        for bit in (0..8).map(|bit| 1_u8 << bit).filter(|bit| bits & bit != 0) {
            let mut packet = packet.clone();
            packet[place] ^= bit;
            has_two_faults(packet, 6);
        }
    }
}

#[test]
fn a_number_that_is_no_edition_is_refused_with_1() {
    for number in none().chain(4..600) {
        let mut bench = of(number, Bench::captured());
        bench.refuses(&WRITE, 1);
        bench.refuses(&request(0x44 | BIT_7, 0x00, 0x05), 1);
        bench.refuses(&TRUSTED_READ, 1);
        bench.refuses(&[], 1);
    }
}

/// Causes of 1 to 6 at once, each there or not: a number that is no edition, a reply of 15 bytes, 11 bytes, bit 7, 17 bytes,
/// a wrong field. The lowest is given; under edition 1 bit 7 is no cause.
#[test]
fn the_lowest_number_is_given() {
    for (edition, causes) in EDITIONS
        .into_iter()
        .flat_map(|edition| (0..64).map(move |causes| (edition, causes)))
    {
        let applies = |number: u32| causes >> (number - 1) & 1 == 1;
        for number in none().take(if applies(1) { 8 } else { 1 }) {
            let mut bench = of(if applies(1) { number } else { edition }, Bench::captured());
            let mut packet = request(if applies(4) { 0x44 | BIT_7 } else { 0x44 }, 0x00, 0x05);
            if applies(6) {
                packet[7] = 0x1F;
            }
            if applies(5) {
                packet.push(0);
            }
            if applies(3) {
                packet.truncate(11);
            }
            if applies(2) {
                bench.reply = lent(&[0xEE; 15]);
            }
            let counts = |number: &u32| applies(*number) && (*number != 4 || edition == EDITION_2);
            match (1..=6).find(counts) {
                Some(lowest) => bench.refuses(&packet, lowest as u8),
                None => is_served(&mut bench, &packet),
            }
        }
    }
}

/// What a host that forgets the edition has: the default of it, which is 0, or all of the default.
#[test]
fn a_raw_description_has_no_edition_by_default() {
    assert_eq!(raw::Description::default().edition, 0);
    let forgotten = raw::Description {
        a: 0x104,
        b: 0x00C,
        ..raw::Description::default()
    };
    let mut bench = Bench::fresh();
    for description in [forgotten, raw::Description::default()] {
        bench.description = description;
        bench.refuses(&WRITE, 1);
        bench.refuses(&WRITE[..11], 1);
    }
    bench.description = forgotten;
    bench.description.edition = EDITION_2;
    bench.ordinary.expect(0x004, &[0x11, 0x22, 0x33, 0x44]);
    bench.answers(&WRITE, &WRITTEN, FIVE_THREE);
}

/// Beside another cause of 1: marks of another length, and a bit in rules and marks with a function over 7.
#[test]
fn with_another_cause_of_1_it_is_1() {
    for number in none() {
        let mut bench = of(number, Bench::captured());
        bench.trusted_marks = lent(&[0; SPACE - 1]);
        bench.refuses(&WRITE, 1);
        let mut bench = of(number, Bench::captured());
        bench.ordinary_marks.set(0x004, &[0xFF]);
        bench.description.function = 8;
        bench.refuses(&WRITE, 1);
    }
}
