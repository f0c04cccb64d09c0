//! The reader: completions read back, every fault with its number, and the lowest where there are several.
#![forbid(unsafe_code)]

mod common;

use common::asking::reads;
use common::{WRITTEN, lengths, resized};
use thawribbon::raw::Heard;

/// P3's completion: success with data.
const SHOWN: [u8; 16] = [
    0x4A, 0x00, 0x00, 0x01, 0x05, 0x18, 0x00, 0x04, 0x01, 0x00, 0x08, 0x00, 0x08, 0x00, 0x00, 0x00,
];
/// P1's completion: Unsupported Request.
const UNSUPPORTED: [u8; 12] = [0x0A, 0x00, 0x00, 0x00, 0x00, 0x00, 0x20, 0x04, 0x01, 0x00, 0x08, 0x00];

#[test]
fn the_completions_of_the_bench_sheet() {
    let heard = |said, completer, tag, data| Heard {
        number: 0,
        said,
        completer,
        requester: [0x01, 0x00],
        tag,
        data,
    };
    assert_eq!(reads(&UNSUPPORTED, 0), heard(3, [0x00, 0x00], 8, [0; 4]));
    assert_eq!(reads(&WRITTEN, 0), heard(2, [0x05, 0x18], 7, [0; 4]));
    assert_eq!(reads(&SHOWN, 0), heard(1, [0x05, 0x18], 8, [0x08, 0x00, 0x00, 0x00]));
}

#[test]
fn every_length_with_each_first_byte() {
    for length in lengths() {
        for (first, whole) in [(0x4A, 16), (0x0A, 12)] {
            let mut bytes = resized(if first == 0x4A { &SHOWN } else { &WRITTEN }, length);
            reads(
                &bytes,
                if length < 12 {
                    3
                } else if length == whole {
                    0
                } else {
                    5
                },
            );
            if length > 0 {
                bytes[0] ^= 0x80;
                reads(&bytes, if length < 12 { 3 } else { 4 });
            }
        }
    }
}

/// Whether a reply with this first byte has this byte at this place.
fn is_sent(first: u8, at: usize, byte: u8) -> bool {
    match at {
        1 | 2 | 11 => byte == 0x00,
        3 => byte == u8::from(first == 0x4A),
        6 => byte == 0x00 || first == 0x0A && byte == 0x20,
        7 => byte == 0x04,
        _ => true,
    }
}

#[test]
fn every_byte_at_every_place() {
    for good in [&SHOWN[..], &WRITTEN, &UNSUPPORTED] {
        for byte in 0..=255 {
            for at in 1..good.len() {
                let mut bytes = good.to_vec();
                bytes[at] = byte;
                reads(&bytes, if is_sent(good[0], at, byte) { 0 } else { 6 });
            }
        }
    }
}

/// Each first byte with 12 and with 16 bytes: 4 is before 5, and 5 before 6.
#[test]
fn every_first_byte() {
    for first in 0..=255 {
        for good in [&SHOWN[..], &WRITTEN] {
            let mut bytes = good.to_vec();
            bytes[0] = first;
            reads(
                &bytes,
                if first == good[0] {
                    0
                } else if matches!(first, 0x4A | 0x0A) {
                    5
                } else {
                    4
                },
            );
        }
    }
}

/// A completion with all four faults, which are mended one after the other.
#[test]
fn the_lowest_number_is_given() {
    let mut bytes = SHOWN.to_vec();
    (bytes[0], bytes[7]) = (0x44, 0x05);
    reads(&bytes[..11], 3);
    reads(&bytes[..15], 4);
    bytes[0] = 0x4A;
    reads(&bytes[..15], 5);
    reads(&bytes, 6);
    bytes[7] = 0x04;
    reads(&bytes, 0);
}
