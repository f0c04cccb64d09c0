//! A board of two functions: whom a packet goes to, whose completer ID an Unsupported Request has, each cause of each number
//! at either function, and what each has captured.
#![forbid(unsafe_code)]

mod common;

use common::pair::{
    ALTERNATE, CAPTURED, ORDINARY, ORDINARY_AT_004, ORDINARY_RULES, PRIMARY, PairBench, SIDES, TRUSTED, TRUSTED_AT_004,
    TRUSTED_RULES, linked, other, packet,
};
use common::switch::TYPES;
use common::{DUAL_BDF, SPACE, lengths, lent, resized};
use thawribbon::{Alternate, Capture, EDITION_1, EDITION_2, dual_bdf, raw};

const TYPE0_READ: u8 = 0x04;
const TYPE0_WRITE: u8 = 0x44;
const TRUSTED_READ: u8 = 0x1B;
const TRUSTED_WRITE: u8 = 0x5B;

/// Sets a byte of a packet.
fn with(mut packet: Vec<u8>, at: usize, byte: u8) -> Vec<u8> {
    packet[at] = byte;
    packet
}

/// A packet for one of the two functions, with the bus and the device that it captures in `PairBench::captured`.
fn sent_to(code: u8, side: usize) -> Vec<u8> {
    packet(code, CAPTURED[side], side as u8)
}

#[test]
fn p1_to_p3_at_each_function() {
    for side in SIDES {
        let mut bench = PairBench::fresh();
        bench.is_unsupported(&sent_to(TRUSTED_READ, side), side);
        bench.writes(&sent_to(TYPE0_WRITE, side), side, CAPTURED[side], ORDINARY);
        bench.reads(&sent_to(TRUSTED_READ, side), side, TRUSTED_AT_004[side]);
        // The other has captured nothing from that.
        bench.is_unsupported(&sent_to(TRUSTED_READ, other(side)), other(side));
        bench.writes(
            &sent_to(TYPE0_WRITE, other(side)),
            other(side),
            CAPTURED[other(side)],
            ORDINARY,
        );
        bench.reads(&sent_to(TRUSTED_READ, side), side, TRUSTED_AT_004[side]);
        bench.writes(&sent_to(TRUSTED_WRITE, side), side, CAPTURED[side], TRUSTED);
    }
}

/// With what the other has captured, a trusted request is unsupported.
#[test]
fn captures_are_apart() {
    for side in SIDES {
        let mut bench = PairBench::captured();
        let others = packet(TRUSTED_READ, CAPTURED[other(side)], side as u8);
        bench.is_unsupported(&others, side);
        bench.reads(&with(others, 0, TYPE0_READ), side, ORDINARY_AT_004[side]);
        bench.sides[side].kept = raw::Capture::default();
        bench.is_unsupported(&sent_to(TRUSTED_READ, side), side);
        bench.reads(
            &sent_to(TRUSTED_READ, other(side)),
            other(side),
            TRUSTED_AT_004[other(side)],
        );
    }
}

/// A packet of a type that names a function, with the bus and the device of one of them, on a pair where each has captured.
fn goes_to(bench: &mut PairBench, code: u8, named: u8, bus_of: usize) {
    let sent = packet(code, CAPTURED[bus_of], named);
    let (trusted, type1) = (code & 0x3F == 0x1B, code & 0x3F == 0x05);
    let numbers = SIDES.map(|side| bench.sides[side].description.function);
    match numbers.iter().position(|&number| number == named) {
        Some(side) if !type1 && trusted && bus_of != side => bench.is_unsupported(&sent, side),
        Some(side) if !type1 && code & 0x40 != 0 => {
            let (after, part) = if trusted { (side, TRUSTED) } else { (bus_of, ORDINARY) };
            bench.writes(&sent, side, CAPTURED[after], part);
        }
        Some(side) if !type1 && trusted => bench.reads(&sent, side, TRUSTED_AT_004[side]),
        Some(side) if !type1 => bench.reads(&sent, side, ORDINARY_AT_004[side]),
        _ => bench.is_unsupported(&sent, PRIMARY),
    }
}

#[test]
fn every_two_numbers_every_one_that_is_named_and_every_type() {
    let numbers = (0..8).flat_map(|one| (0..8).map(move |other| (one, other)));
    for (one, other) in numbers.filter(|(one, other)| one != other) {
        for named in [0, one, other, 7] {
            for (code, bus_of) in TYPES.into_iter().flat_map(|code| SIDES.map(|side| (code, side))) {
                let mut bench = PairBench::captured();
                bench.sides[PRIMARY].description.function = one;
                bench.sides[ALTERNATE].description.function = other;
                goes_to(&mut bench, code, named, bus_of);
            }
        }
    }
}

/// With neither captured, one, and both.
#[test]
fn what_is_unsupported_and_whose_id_it_has() {
    for captured in 0..4 {
        let mut bench = PairBench::fresh();
        for side in SIDES.into_iter().filter(|side| captured >> side & 1 == 1) {
            bench.sides[side].kept = linked(Some(CAPTURED[side]));
        }
        for side in SIDES {
            // Poisoned writes, and a trusted request for another bus: the function that is named, with its own ID.
            for code in [TYPE0_WRITE, TRUSTED_WRITE] {
                bench.is_unsupported(&with(sent_to(code, side), 2, 0x40), side);
            }
            bench.is_unsupported(&with(sent_to(TRUSTED_READ, side), 8, 0x40), side);
            // Type 1, whatever it names, and all that names neither: the primary, with its own.
            for code in [0x05, 0x45] {
                bench.is_unsupported(&sent_to(code, side), PRIMARY);
            }
            for code in TYPES {
                bench.is_unsupported(&packet(code, CAPTURED[side], 2), PRIMARY);
                bench.is_unsupported(&packet(code, CAPTURED[side], 7), PRIMARY);
            }
        }
    }
}

/// Packets for either function and for neither are refused with 1, and so is one that is none.
fn is_badly_described(bench: &mut PairBench) {
    for named in 0..3 {
        bench.refuses(&packet(TYPE0_WRITE, CAPTURED[PRIMARY], named), 1);
    }
    bench.refuses(&[], 1);
}

#[test]
fn equal_numbers_are_refused() {
    for number in 0..=255 {
        let mut bench = PairBench::captured();
        for side in SIDES {
            bench.sides[side].description.function = number;
        }
        is_badly_described(&mut bench);
        bench.refuses(&packet(TRUSTED_READ, CAPTURED[PRIMARY], number & 7), 1);
    }
}

#[test]
fn a_number_a_place_or_a_device_outside_its_range_is_refused_at_either() {
    for side in SIDES {
        let refused = |change: &dyn Fn(&mut common::pair::BenchSide)| {
            let mut bench = PairBench::captured();
            change(&mut bench.sides[side]);
            is_badly_described(&mut bench);
        };
        for number in 8..=255 {
            refused(&|one| one.description.function = number);
        }
        for place in [0x000, 0x008, 0x105, 0x106, 0xFFD, 0x1000, 0x1_0104, u32::MAX] {
            refused(&|one| one.description.a = place);
            refused(&|one| one.description.b = place);
        }
        for device in 32..=255 {
            refused(&|one| one.kept.device = device);
        }
        // A device that is not captured does not count.
        let mut bench = PairBench::captured();
        bench.sides[side].kept = raw::Capture {
            captured: 0,
            bus: 0xFF,
            device: 0xFF,
        };
        bench.writes(
            &sent_to(TYPE0_WRITE, other(side)),
            other(side),
            CAPTURED[other(side)],
            ORDINARY,
        );
    }
}

#[test]
fn a_bit_in_rules_and_marks_of_any_space_is_refused() {
    for (side, rules) in SIDES
        .into_iter()
        .flat_map(|side| [ORDINARY_RULES, TRUSTED_RULES].map(|rules| (side, rules)))
    {
        for at in (0x008..SPACE).step_by(509).chain([SPACE - 1]) {
            let mut bench = PairBench::captured();
            bench.sides[side].parts[rules].set(at, &[1 << (at % 8)]);
            bench.sides[other(side)].parts[rules + 1].set(at, &[1 << (at % 8)]);
            bench.reads(&sent_to(TYPE0_READ, side), side, ORDINARY_AT_004[side]);
            bench.sides[side].parts[rules + 1].set(at, &[1 << (at % 8)]);
            is_badly_described(&mut bench);
        }
    }
}

#[test]
fn a_number_that_is_no_edition_is_refused() {
    for edition in [0, 3, 257, 258, 0x1_0001, u32::MAX] {
        let mut bench = PairBench::captured();
        bench.edition = edition;
        is_badly_described(&mut bench);
    }
}

#[test]
fn each_of_the_twelve_slices_of_every_length() {
    for (side, part) in SIDES.into_iter().flat_map(|side| (0..6).map(move |part| (side, part))) {
        for length in lengths() {
            let mut bench = PairBench::captured();
            let slice = &mut bench.sides[side].parts[part];
            *slice = lent(&resized(slice.part(), length));
            if length == SPACE {
                bench.writes(&sent_to(TYPE0_WRITE, side), side, CAPTURED[side], ORDINARY);
            } else {
                bench.refuses(&sent_to(TYPE0_WRITE, side), 1);
                bench.refuses(&sent_to(TYPE0_WRITE, other(side)), 1);
            }
        }
    }
}

#[test]
fn replies_of_every_length() {
    for (length, side) in lengths().flat_map(|length| SIDES.map(|side| (length, side))) {
        let mut bench = PairBench::captured();
        bench.reply = lent(&vec![0xEE; length]);
        let read = sent_to(TRUSTED_READ, side);
        if length < 16 {
            bench.refuses(&read, 2);
            bench.refuses(&read[..11], 2);
            bench.refuses(&packet(TYPE0_WRITE, CAPTURED[side], 7), 2);
        } else {
            bench.reads(&read, side, TRUSTED_AT_004[side]);
        }
    }
}

/// 3 to 6, whoever is named.
#[test]
fn packets_with_a_fault_for_each_function_and_for_none() {
    let fixed = [(1, 0x70), (2, 0x33), (3, 0xFF), (7, 0xF0)];
    let mut bench = PairBench::captured();
    for named in 0..8 {
        let write = packet(TYPE0_WRITE, CAPTURED[PRIMARY], named);
        for length in lengths().filter(|&length| length != 16) {
            bench.refuses(&resized(&write, length), if length < 12 { 3 } else { 5 });
        }
        for byte_0 in (0..=255).filter(|byte_0| !TYPES.contains(&(byte_0 & 0x7F))) {
            bench.refuses(&with(write.clone(), 0, byte_0), 4);
        }
        for (at, bits) in fixed {
            for bit in (0..8).map(|bit| 1_u8 << bit).filter(|bit| bits & bit != 0) {
                bench.refuses(&with(write.clone(), at, write[at] ^ bit), 6);
            }
        }
    }
}

/// Causes of 1 to 6 at once, each there or not, with that of 1 at either function.
#[test]
fn the_lowest_number_is_given() {
    for (causes, named, side) in
        (1..64).flat_map(|causes| (0..3).flat_map(move |named| SIDES.map(|side| (causes, named, side))))
    {
        let applies = |number: u32| causes >> (number - 1) & 1 == 1;
        let mut bench = PairBench::captured();
        let mut packet = packet(TYPE0_WRITE, CAPTURED[PRIMARY], named);
        if applies(6) {
            packet[7] = 0x1F;
        }
        if applies(5) {
            packet.push(0);
        }
        if applies(4) {
            packet[0] = 0x00;
        }
        if applies(3) {
            packet.truncate(11);
        }
        if applies(2) {
            bench.reply = lent(&[0xEE; 15]);
        }
        if applies(1) {
            bench.sides[side].description.function = other(side) as u8;
        }
        let lowest = (1..=6).find(|&number| applies(number)).expect("one cause at least");
        bench.refuses(&packet, lowest as u8);
    }
}

#[test]
fn bit_7_of_byte_0_under_both_editions() {
    for (code, named) in TYPES.into_iter().flat_map(|code| [0, 1, 2].map(|named| (code, named))) {
        let bus_of = usize::from(named == 1);
        for (edition, bit_7) in [EDITION_1, EDITION_2]
            .into_iter()
            .flat_map(|edition| [0x00, 0x80].map(|bit_7| (edition, bit_7)))
        {
            let mut bench = PairBench::captured();
            bench.edition = edition;
            if edition == EDITION_2 && bit_7 != 0 {
                bench.refuses(&packet(code | bit_7, CAPTURED[bus_of], named), 4);
            } else {
                goes_to(&mut bench, code | bit_7, named, bus_of);
            }
        }
    }
}

/// Any value of `captured` but 0 means captured. A refusal hands all bytes back; a packet that is served gives 0 or 1.
#[test]
fn captures_come_back_as_given_or_in_their_form() {
    for (one, two) in (0..=255)
        .step_by(5)
        .flat_map(|one| [0, 1, 2, 255].map(|two| (one, two)))
    {
        let mut bench = PairBench::captured();
        bench.sides[PRIMARY].kept.captured = one;
        bench.sides[ALTERNATE].kept.captured = two;
        let read = sent_to(TRUSTED_READ, ALTERNATE);
        bench.refuses(&read[..11], 3);
        if two == 0 {
            bench.is_unsupported(&read, ALTERNATE);
        } else {
            bench.reads(&read, ALTERNATE, TRUSTED_AT_004[ALTERNATE]);
        }
    }
}

#[test]
fn a_reset_forgets_both() {
    for (one, two) in (0..=255).flat_map(|one| [0, 1, 255].map(|two| (one, two))) {
        let capture = |captured| raw::Capture {
            captured,
            bus: 0xFF,
            device: 0xFF,
        };
        let kept = raw::Captures {
            primary: capture(one),
            alternate: capture(two),
        };
        assert_eq!(raw::reset_pair(kept), raw::Captures::default());
    }
    let mut bench = PairBench::captured();
    let after = raw::reset_pair(bench.kept());
    (bench.sides[PRIMARY].kept, bench.sides[ALTERNATE].kept) = (after.primary, after.alternate);
    for side in SIDES {
        bench.is_unsupported(&sent_to(TRUSTED_READ, side), side);
    }
}

#[test]
fn nothing_but_empty_slices() {
    let (bench, mut bytes) = (PairBench::captured(), [(); 5].map(|()| Vec::new()));
    let [a, b, c, d, reply] = &mut bytes;
    let [primary, alternate] = SIDES.map(|side| bench.sides[side].description);
    let served = raw::serve_pair(
        EDITION_1,
        primary,
        alternate,
        bench.kept(),
        a,
        &[],
        &[],
        b,
        &[],
        &[],
        c,
        &[],
        &[],
        d,
        &[],
        &[],
        &[],
        reply,
    );
    let expected = raw::PairServed {
        length: 0,
        number: 1,
        kept: bench.kept(),
    };
    assert_eq!(served, expected);
}

/// Three reads of the primary give its Dual-BDF record, and what it names is served by the alternate.
#[test]
fn the_alternate_by_the_record_that_the_primary_shows() {
    let mut bench = PairBench::fresh();
    bench.sides[PRIMARY].parts[ORDINARY].set(0x040, &DUAL_BDF);
    let mut seen = [0; SPACE];
    let bus = CAPTURED[PRIMARY];
    for (at, word) in (0x40..).step_by(4).zip(DUAL_BDF.chunks(4)) {
        let word = word.try_into().expect("a word");
        bench.reads(&with(packet(TYPE0_READ, bus, 0), 11, at), PRIMARY, word);
        seen[usize::from(at)..][..4].copy_from_slice(&bench.reply.part()[12..16]);
    }
    let Alternate { function, device } = dual_bdf(&seen, 0x040).expect("the record");
    assert_eq!(
        u32::from(function),
        u32::from(bench.sides[ALTERNATE].description.function)
    );
    let target = Capture { device, ..bus };
    bench.writes(&packet(TYPE0_WRITE, target, function), ALTERNATE, target, ORDINARY);
    bench.reads(
        &packet(TRUSTED_READ, target, function),
        ALTERNATE,
        TRUSTED_AT_004[ALTERNATE],
    );
    bench.is_unsupported(&packet(TRUSTED_READ, target, 0), PRIMARY);
}
