//! Every place that a caller can name: A and B, and the offset of a record, up to the largest numbers there are.
#![forbid(unsafe_code)]

mod common;

use common::{Bench, DUAL_BDF, DVSEC, SPACE, TRUSTED_READ};
use thawribbon::{Alternate, Capture, Dvsec, Offset, Refusal, dual_bdf, dvsec, dvsec_body, raw};

/// Offsets whose lower bits name a record, if upper ones are dropped, and those at the ends of the number types.
fn far_offsets() -> impl Iterator<Item = usize> {
    let powers = (12..usize::BITS).map(|bit| 1 << bit);
    let named = powers.flat_map(|power| [power, power + 0x040, power + 0x100, power + 0xFFC]);
    let near_u32 = u32::MAX as usize - 0x1000..=u32::MAX as usize + 0x1000;
    let near_usize = usize::MAX - 0x1000..=usize::MAX;
    named.chain(near_u32).chain(near_usize)
}

#[test]
fn a_dvsec_is_asked_for_at_multiples_of_4_from_100h_to_ffch() {
    let mut space = vec![0; SPACE];
    let none = raw::Dvsec::default();
    for at in 0..0x1100 {
        let number = if at % 4 == 0 && (0x100..=0xFFC).contains(&at) {
            8
        } else {
            1
        };
        assert_eq!(raw::dvsec(&space, at), raw::Dvsec { number, ..none }, "at {at:X}h");
        assert_eq!(raw::dvsec_body(&space, at), raw::Part::default());
    }
    space[0x100..0x10A].copy_from_slice(&DVSEC);
    for at in far_offsets() {
        assert_eq!(raw::dvsec(&space, at), raw::Dvsec { number: 1, ..none }, "at {at:X}h");
        assert_eq!(raw::dvsec_body(&space, at), raw::Part::default());
    }
}

#[test]
fn a_dual_bdf_is_asked_for_at_multiples_of_4_from_040h_to_0fch() {
    let mut space = vec![0; SPACE];
    let none = raw::Alternate::default();
    for at in 0..0x1100 {
        let number = if at % 4 == 0 && (0x040..=0x0FC).contains(&at) {
            8
        } else {
            1
        };
        assert_eq!(
            raw::dual_bdf(&space, at),
            raw::Alternate { number, ..none },
            "at {at:X}h"
        );
    }
    space[0x040..0x04C].copy_from_slice(&DUAL_BDF);
    for at in far_offsets() {
        assert_eq!(
            raw::dual_bdf(&space, at),
            raw::Alternate { number: 1, ..none },
            "at {at:X}h"
        );
    }
}

#[test]
fn every_offset_is_answered_as_raw_answers_it() {
    let mut space = vec![0; SPACE];
    space[0x040..0x04C].copy_from_slice(&DUAL_BDF);
    space[0x100..0x10A].copy_from_slice(&DVSEC);
    for at in 0..=Offset::MAX {
        let plain = usize::from(at);
        let header = raw::dvsec(&space, plain);
        let body = raw::dvsec_body(&space, plain);
        assert_eq!(dvsec(&space, at).map_or_else(Refusal::number, |_| 0), header.number);
        assert_eq!(dvsec_body(&space, at).map_or(0, <[u8]>::len), body.length, "at {at:X}h");
        assert_eq!(dvsec_body(&space, at).is_some(), header.number == 0, "at {at:X}h");
        let number = raw::dual_bdf(&space, plain).number;
        assert_eq!(dual_bdf(&space, at).map_or_else(Refusal::number, |_| 0), number);
    }
}

/// A space that holds nothing but 5Ah and a DVSEC record of a length at an offset, as far as the space goes.
fn with_dvsec(at: usize, length: usize) -> Vec<u8> {
    let mut space = vec![0x5A; SPACE];
    let header_1 = 0x1EC0 | 0x7 << 16 | (length as u32) << 20;
    let record = [
        0x0001_0023_u32.to_le_bytes(),
        header_1.to_le_bytes(),
        [0x02, 0x00, 0x5A, 0x5A],
    ]
    .concat();
    let fits = record.len().min(SPACE - at);
    space[at..at + fits].copy_from_slice(&record[..fits]);
    space
}

/// The record is found, with its body in the space.
fn found(space: &[u8], at: usize, length: usize) {
    let header = Dvsec {
        vendor: 0x1EC0,
        revision: 7,
        id: 0x0002,
        length: length as u16,
    };
    let offset = at as Offset;
    assert_eq!(dvsec(space, offset), Ok(header), "{length:X}h bytes at {at:X}h");
    let body = &space[at + 0x00A..at + length];
    let given = dvsec_body(space, offset).expect("a body, also an empty one");
    assert_eq!(given.as_ptr_range(), body.as_ptr_range());
}

/// The record is refused with 9, and nothing else is told.
fn refused(space: &[u8], at: usize, length: usize) {
    let why = format!("{length:X}h bytes at {at:X}h");
    assert_eq!(dvsec(space, at as Offset), Err(Refusal::WrongExtent), "{why}");
    assert_eq!(dvsec_body(space, at as Offset), None);
    let nothing_else = raw::Dvsec {
        number: 9,
        ..raw::Dvsec::default()
    };
    assert_eq!(raw::dvsec(space, at), nothing_else);
    assert_eq!(raw::dvsec_body(space, at), raw::Part::default());
}

#[test]
fn a_dvsec_ends_by_1000h() {
    for at in (0x100..=0xFFC).step_by(4) {
        let left = 0x1000 - at;
        for length in [0x000, 0x009, 0x00A, 0x00B, left - 1, left, left + 1, 0xFFF] {
            let length = length & 0xFFF;
            let space = with_dvsec(at, length);
            if length >= 0x00A && at + length <= SPACE {
                found(&space, at, length);
            } else {
                refused(&space, at, length);
            }
        }
    }
}

#[test]
fn a_dual_bdf_ends_by_100h() {
    for at in (0x040..=0x0FC).step_by(4) {
        let mut space = vec![0; SPACE];
        space[at..at + 12].copy_from_slice(&DUAL_BDF);
        let answer = if at <= 0x0F4 {
            Ok(Alternate { function: 1, device: 3 })
        } else {
            Err(Refusal::WrongExtent)
        };
        assert_eq!(dual_bdf(&space, at as Offset), answer, "at {at:X}h");
    }
}

/// A board that captured, with these places: it answers P3, or refuses with 1.
fn described(a: u32, b: u32, function: u8, well: bool) {
    let mut bench = Bench::captured();
    bench.description.a = a;
    bench.description.b = b;
    bench.description.function = function;
    let mut packet = TRUSTED_READ;
    packet[9] |= function & 7;
    let completion = [
        [0x4A, 0x00, 0x00, 0x01],
        [0x05, packet[9], 0x00, 0x04],
        [0x01, 0x00, 0x08, 0x00],
        [0x08, 0x00, 0x00, 0x00],
    ];
    if well {
        bench.answers(
            &packet,
            completion.as_flattened(),
            Some(Capture { bus: 0x05, device: 3 }),
        );
    } else {
        bench.refuses(&packet, 1);
    }
}

#[test]
fn a_is_a_multiple_of_4_from_104h_to_ffch() {
    for a in (0x0F8..=0x110).chain(0xFF0..=0x1010).chain(u32::MAX - 8..=u32::MAX) {
        described(a, 0x00C, 0, a % 4 == 0 && (0x104..=0xFFC).contains(&a));
    }
    for bit in 12..u32::BITS {
        described(1 << bit | 0x104, 0x00C, 0, false);
    }
}

#[test]
fn b_is_a_multiple_of_4_from_00ch_to_ffch() {
    for b in (0x000..=0x018).chain(0xFF0..=0x1010).chain(u32::MAX - 8..=u32::MAX) {
        described(0x104, b, 0, b % 4 == 0 && (0x00C..=0xFFC).contains(&b));
    }
    for bit in 12..u32::BITS {
        described(0x104, 1 << bit | 0x00C, 0, false);
    }
}

#[test]
fn the_function_is_0_to_7() {
    for function in 0..=255 {
        described(0x104, 0x00C, function, function <= 7);
    }
}
