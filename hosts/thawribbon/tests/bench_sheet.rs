//! The bench sheet of document 01 through the crate: P1 to P12, and the line after them.
#![forbid(unsafe_code)]

mod common;

use common::{
    Bench, DUAL_BDF, DVSEC, LISTS, SPACE, TRUSTED_READ, WRITE, WRITTEN, broken, chained, floor, start, walked,
};
use thawribbon::{Alternate, Capture, Dvsec, List, Refusal, chain, dual_bdf, dvsec, dvsec_body, raw};

const FIVE_THREE: Option<Capture> = Some(Capture { bus: 0x05, device: 3 });

/// A space of zeros with bytes at an offset.
fn space_with(at: usize, bytes: &[u8]) -> Vec<u8> {
    let mut space = vec![0; SPACE];
    space[at..at + bytes.len()].copy_from_slice(bytes);
    space
}

#[test]
fn p1_trusted_read_on_a_fresh_board() {
    let completion = [0x0A, 0x00, 0x00, 0x00, 0x00, 0x00, 0x20, 0x04, 0x01, 0x00, 0x08, 0x00];
    Bench::fresh().answers(&TRUSTED_READ, &completion, None);
}

#[test]
fn p2_ordinary_write_on_a_fresh_board() {
    let mut bench = Bench::fresh();
    bench.ordinary.expect(0x004, &[0x11, 0x22, 0x33, 0x44]);
    bench.answers(&WRITE, &WRITTEN, FIVE_THREE);
}

#[test]
fn p3_trusted_read_after_the_capture() {
    let mut bench = Bench::fresh();
    bench.ordinary.expect(0x004, &[0x11, 0x22, 0x33, 0x44]);
    bench.answers(&WRITE, &WRITTEN, FIVE_THREE);
    let completion = [
        0x4A, 0x00, 0x00, 0x01, 0x05, 0x18, 0x00, 0x04, 0x01, 0x00, 0x08, 0x00, 0x08, 0x00, 0x00, 0x00,
    ];
    bench.answers(&TRUSTED_READ, &completion, FIVE_THREE);
}

#[test]
fn p4_empty_packet() {
    Bench::fresh().refuses(&[], 3);
}

#[test]
fn p5_write_without_its_last_byte() {
    Bench::fresh().refuses(&WRITE[..15], 5);
}

#[test]
fn p6_first_byte_zero() {
    let mut packet = TRUSTED_READ;
    packet[0] = 0x00;
    Bench::fresh().refuses(&packet, 4);
}

#[test]
fn p7_last_enables() {
    let mut packet = TRUSTED_READ;
    packet[7] = 0x1F;
    Bench::fresh().refuses(&packet, 6);
}

#[test]
fn p8_merge() {
    let mut packet = WRITE;
    packet[12..].fill(0xA5);
    let mut bench = Bench::fresh();
    bench.ordinary.set(0x004, &[0x0F; 4]);
    bench.ordinary_rules.set(0x004, &[0xF0; 4]);
    bench.ordinary.expect(0x004, &[0xAF; 4]);
    bench.answers(&packet, &WRITTEN, FIVE_THREE);
    packet[0] = 0x5B;
    bench.trusted.set(0x004, &[0x0F; 4]);
    bench.trusted_rules.set(0x004, &[0xF0; 4]);
    bench.trusted.expect(0x004, &[0xAF; 4]);
    bench.answers(&packet, &WRITTEN, FIVE_THREE);
}

#[test]
fn p9_dual_bdf() {
    let space = space_with(0x040, &DUAL_BDF);
    assert_eq!(dual_bdf(&space, 0x040), Ok(Alternate { function: 1, device: 3 }));
}

#[test]
fn p10_dual_bdf_with_two_bits() {
    let mut space = space_with(0x040, &DUAL_BDF);
    space[0x04A] = 0x03;
    assert_eq!(dual_bdf(&space, 0x040), Err(Refusal::NotOneFunction));
    let nothing_else = raw::Alternate {
        number: 10,
        ..raw::Alternate::default()
    };
    assert_eq!(raw::dual_bdf(&space, 0x040), nothing_else);
}

#[test]
fn p11_dvsec() {
    let mut space = space_with(0x100, &DVSEC);
    space[0x10A..0x110].copy_from_slice(&[1, 2, 3, 4, 5, 6]);
    assert_eq!(
        dvsec(&space, 0x100),
        Ok(Dvsec {
            vendor: 0x1EC0,
            revision: 0,
            id: 0x0002,
            length: 0x10
        })
    );
    let body = dvsec_body(&space, 0x100).expect("a body");
    assert_eq!(body, [1, 2, 3, 4, 5, 6]);
    assert_eq!(
        body.as_ptr_range(),
        space[0x10A..0x110].as_ptr_range(),
        "the body is the space's own bytes"
    );
}

#[test]
fn p12_header_that_points_to_itself() {
    let space = space_with(0x100, &[0x23, 0x00, 0x01, 0x10]);
    assert_eq!(broken(List::Extended, &space), (12, 0x100));
    assert_eq!(chain(List::Extended, &space), Err(Refusal::ComesBack { place: 0x100 }));
}

#[test]
fn a_pointer_4_below_each_floor() {
    for list in LISTS {
        let space = chained(list, &[floor(list)], floor(list) - 4);
        assert_eq!(broken(list, &space), (11, floor(list)), "the first pointer of {list:?}");
    }
    for list in [List::Compatible, List::Trusted] {
        let mut space = vec![0; SPACE];
        start(&mut space, list, floor(list) - 4);
        assert_eq!(broken(list, &space), (11, 0), "the start of {list:?}");
        let down = [floor(list) + 4, floor(list)];
        assert_eq!(
            walked(list, &chained(list, &down, 0), list.maximum(), &down),
            0,
            "at the floor of {list:?}"
        );
    }
}

#[test]
fn a_reply_of_15_and_16_bytes() {
    let mut bench = Bench::captured();
    bench.reply = common::lent(&[0xEE; 15]);
    bench.refuses(&TRUSTED_READ, 2);
    bench.reply = common::lent(&[0xEE; 16]);
    let completion = [
        0x4A, 0x00, 0x00, 0x01, 0x05, 0x18, 0x00, 0x04, 0x01, 0x00, 0x08, 0x00, 0x08, 0x00, 0x00, 0x00,
    ];
    bench.answers(&TRUSTED_READ, &completion, FIVE_THREE);
}

#[test]
fn a_and_b_at_both_ends() {
    for a in [0x104, 0xFFC] {
        for b in [0x00C, 0xFFC] {
            let mut bench = Bench::captured();
            bench.description.a = a;
            bench.description.b = b;
            bench.trusted.set(b as usize, &[0xC0, 0xC1, 0xC2, 0xC3]);
            let mut packet = [0x04, 0x00, 0x00, 0x01, 0x01, 0x00, 0x08, 0x0F, 0x05, 0x18, 0x00, 0x00];
            [packet[10], packet[11]] = (a as u16).to_be_bytes();
            let completion = [
                0x4A, 0x00, 0x00, 0x01, 0x05, 0x18, 0x00, 0x04, 0x01, 0x00, 0x08, 0x00, 0xC0, 0xC1, 0xC2, 0xC3,
            ];
            bench.answers(&packet, &completion, FIVE_THREE);
        }
    }
}
