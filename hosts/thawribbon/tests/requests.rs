//! The writer: requests from their parts, every cause of a refusal, every length of the buffer, and its bytes afterwards.
#![forbid(unsafe_code)]

mod common;

use common::asking::{HOST, KINDS, READ_PARTS, TARGET, WRITE_PARTS, id, packet, request, writes};
use common::{TRUSTED_READ, WRITE, lengths};
use thawribbon::raw::Parts;
use thawribbon::{Packet, Refusal, Request};

#[test]
fn the_packets_of_the_bench_sheet() {
    writes(READ_PARTS, 12, 0);
    writes(WRITE_PARTS, 16, 0);
    assert_eq!(
        (packet(READ_PARTS), packet(WRITE_PARTS)),
        (TRUSTED_READ.to_vec(), WRITE.to_vec())
    );
    let read = Request::trusted_read(TARGET, 0x004).by(HOST, 8).packet();
    let write = Request::type0_write(TARGET, 0x004, [0x11, 0x22, 0x33, 0x44])
        .by(HOST, 7)
        .packet();
    assert_eq!(read.as_deref(), Ok(&TRUSTED_READ[..]));
    assert_eq!(write.as_deref(), Ok(&WRITE[..]));
}

#[test]
fn every_value_of_every_part() {
    for kind in 0..=255 {
        let is_kind = KINDS.iter().any(|known| known.code() == kind);
        writes(Parts { kind, ..WRITE_PARTS }, 20, if is_kind { 0 } else { 1 });
    }
    for value in 0..=255 {
        let in_range = |most| if value <= most { 0 } else { 1 };
        writes(
            Parts {
                device: value,
                ..WRITE_PARTS
            },
            20,
            in_range(31),
        );
        writes(
            Parts {
                function: value,
                ..WRITE_PARTS
            },
            20,
            in_range(7),
        );
        writes(
            Parts {
                enables: value,
                ..READ_PARTS
            },
            20,
            in_range(15),
        );
        writes(
            Parts {
                bus: value,
                tag: !value,
                ..READ_PARTS
            },
            20,
            0,
        );
        writes(
            Parts {
                requester: [value, !value],
                data: [value; 4],
                ..WRITE_PARTS
            },
            20,
            0,
        );
    }
}

#[test]
fn every_offset_and_some_that_are_none() {
    for offset in (0..=0x1004).chain([0x1_0000, 0x1_0004, 0xFFFF_FFFC, u32::MAX]) {
        let number = if offset <= 0xFFC && offset % 4 == 0 { 0 } else { 1 };
        writes(Parts { offset, ..WRITE_PARTS }, 16, number);
        writes(Parts { offset, ..READ_PARTS }, 12, number);
    }
}

/// 2 with a buffer that is one short, and with any shorter; but 1 is before 2, also with an empty buffer.
#[test]
fn every_length_of_the_buffer() {
    for room in lengths() {
        for kind in KINDS {
            let parts = Parts {
                kind: kind.code(),
                ..WRITE_PARTS
            };
            let needed = if kind.writes() { 16 } else { 12 };
            writes(parts, room, if room < needed { 2 } else { 0 });
            writes(Parts { device: 32, ..parts }, room, 1);
            writes(Parts { function: 8, ..parts }, room, 1);
            writes(
                Parts {
                    offset: 0x1000,
                    ..parts
                },
                room,
                1,
            );
            writes(Parts { offset: 0x002, ..parts }, room, 1);
            writes(Parts { enables: 0x10, ..parts }, room, 1);
            writes(
                Parts {
                    kind: kind.code() | 0x80,
                    ..parts
                },
                room,
                1,
            );
        }
    }
}

/// Each kind by its own function, with parts that are all different.
#[test]
fn a_request_of_each_kind() {
    for kind in KINDS {
        let built = request(kind, id(0xB7, 0x1E, 5), 0xA9C, [0xD1, 0xD2, 0xD3, 0xD4]);
        assert_eq!(
            (built.kind, built.requester, built.tag, built.enables),
            (kind, [0x00, 0x00], 0, 0x0F)
        );
        let built = built.by([0xC3, 0xAE], 0xE8).enabling(0x06);
        let expected = packet(Parts {
            offset: 0xA9C,
            kind: kind.code(),
            requester: [0xC3, 0xAE],
            tag: 0xE8,
            bus: 0xB7,
            device: 0x1E,
            function: 5,
            enables: 0x06,
            data: [0xD1, 0xD2, 0xD3, 0xD4],
        });
        let packet = built.packet().expect("the parts are in their ranges");
        assert_eq!(
            (packet.bytes(), packet.len()),
            (&expected[..], if kind.writes() { 16 } else { 12 })
        );
        assert_eq!(format!("{packet:?}"), format!("Packet({expected:02X?})"));
    }
}

#[test]
fn a_request_that_is_refused() {
    let refused = |request: Request| assert_eq!(request.packet(), Err(Refusal::BadDescription), "{request:?}");
    for kind in KINDS {
        let good = request(kind, TARGET, 0x004, [0; 4]).by(HOST, 1);
        assert!(good.packet().is_ok());
        refused(good.enabling(16));
        refused(Request { offset: 0x1000, ..good });
        refused(Request { offset: 0x001, ..good });
        refused(Request {
            offset: u16::MAX,
            ..good
        });
        refused(Request {
            target: id(5, 32, 0),
            ..good
        });
        refused(Request {
            target: id(5, 3, 8),
            ..good
        });
    }
}

/// Any two bytes are a requester, and any byte a tag: they are sent as they are.
#[test]
fn every_byte_of_a_requester() {
    for value in 0..=255 {
        let read = Request::type1_read(TARGET, 0x004).by([!value, value], value ^ 0x5A);
        let packet = read.packet().expect("the parts are in their ranges");
        assert_eq!(packet[4..7], [!value, value, value ^ 0x5A]);
    }
}

#[test]
fn a_packet_stands_where_bytes_do() {
    fn count(bytes: &[u8]) -> usize {
        bytes.len()
    }
    let packet: Packet = Request::type0_read(TARGET, 0).packet().expect("a good request");
    assert_eq!((count(&packet), packet[0], packet.iter().count()), (12, 0x04, 12));
}
