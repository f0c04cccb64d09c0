//! A read gives all four bytes of its word, whatever it enables: in the ordinary space, at A and in the trusted space.
#![forbid(unsafe_code)]

mod common;

use common::{Bench, TRUSTED_READ};
use thawribbon::Capture;

const FIVE_THREE: Option<Capture> = Some(Capture { bus: 0x05, device: 3 });

/// Reads by byte 0, bytes 10 and 11, and what they give: ordinary, at A, trusted. No two words are alike, and no byte is 00h.
const READS: [(u8, [u8; 2], [u8; 4]); 3] = [
    (0x04, [0x03, 0xA8], [0xA0, 0xA1, 0xA2, 0xA3]),
    (0x04, [0x01, 0x04], [0xC0, 0xC1, 0xC2, 0xC3]),
    (0x1B, [0x03, 0xA8], [0x80, 0x81, 0x82, 0x83]),
];

/// A board that has captured, with those words in both spaces, and other bytes than at B stored at A.
fn bench() -> Bench {
    let mut bench = Bench::captured();
    bench.ordinary.set(0x3A8, &READS[0].2);
    bench.ordinary.set(0x104, &[0xD0, 0xD1, 0xD2, 0xD3]);
    bench.trusted.set(0x00C, &READS[1].2);
    bench.trusted.set(0x3A8, &READS[2].2);
    bench
}

/// Every read under every enable, with this byte 2 and these bytes behind the packet.
fn gives_all_four(two: u8, digest: &[u8]) {
    for (code, offset, given) in READS {
        for enables in 0..16 {
            let mut packet = TRUSTED_READ;
            (packet[0], packet[2], packet[7]) = (code, two, enables);
            packet[10..].copy_from_slice(&offset);
            let head = [0x4A, 0x00, 0x00, 0x01, 0x05, 0x18, 0x00, 0x04, 0x01, 0x00, 0x08, 0x00];
            bench().answers(&[&packet, digest].concat(), &[&head[..], &given].concat(), FIVE_THREE);
        }
    }
}

#[test]
fn under_every_enable() {
    gives_all_four(0x00, &[]);
}

#[test]
fn poisoned() {
    gives_all_four(0x40, &[]);
}

#[test]
fn with_a_digest() {
    gives_all_four(0x80, &[0xDE, 0xAD, 0xBE, 0xEF]);
}
