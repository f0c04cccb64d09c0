//! Request 5/13, sentence by sentence, on the model: requests of every kind, completions of every length, and both
//! with a board between them.

use super::{Description, Heard, Parts, Said, Written, read_completion, serve, write_request};

/// P2's request of the bench sheet in its parts.
const P2: Parts = Parts {
    kind: 0x44,
    requester: [1, 0],
    tag: 7,
    bus: 5,
    device: 3,
    function: 0,
    offset: 0x004,
    enables: 0x0F,
    data: [0x11, 0x22, 0x33, 0x44],
};
const P2_PACKET: [u8; 16] = [0x44, 0, 0, 1, 1, 0, 7, 0x0F, 5, 0x18, 0, 4, 0x11, 0x22, 0x33, 0x44];
/// The completions of P1 to P3: UR, success without data, success with data.
const P1_REPLY: [u8; 12] = [0x0A, 0, 0, 0, 0, 0, 0x20, 4, 1, 0, 8, 0];
const P2_REPLY: [u8; 12] = [0x0A, 0, 0, 0, 5, 0x18, 0, 4, 1, 0, 7, 0];
const P3_REPLY: [u8; 16] = [0x4A, 0, 0, 1, 5, 0x18, 0, 4, 1, 0, 8, 0, 8, 0, 0, 0];
/// What the buffer is filled with before it is lent.
const LENT: u8 = 0xEE;
const KINDS: [u8; 6] = [0x04, 0x44, 0x05, 0x45, 0x1B, 0x5B];

/// Writes a request into a buffer of so many bytes, and answers what is written there. The rest has to stay.
fn written(parts: Parts, room: usize) -> (u8, Vec<u8>) {
    let mut buffer = vec![LENT; room];
    let Written { number, length } = write_request(&parts, &mut buffer);
    assert!(buffer[length..].iter().all(|&byte| byte == LENT), "{parts:x?}");
    buffer.truncate(length);
    (number, buffer)
}

fn refused(number: u8) -> (u8, Vec<u8>) {
    (number, Vec::new())
}

#[test]
fn the_bench_sheets_requests_are_written() {
    assert_eq!(written(P2, 16), (0, P2_PACKET.to_vec()));
    let p1 = Parts {
        kind: 0x1B,
        tag: 8,
        ..P2
    };
    let packet = [0x1B, 0, 0, 1, 1, 0, 8, 0x0F, 5, 0x18, 0, 4];
    assert_eq!(written(p1, 12), (0, packet.to_vec()));
    assert_eq!(written(Parts { data: [0; 4], ..p1 }, 24), (0, packet.to_vec()));
}

#[test]
fn every_part_lies_at_its_place() {
    for kind in KINDS {
        let parts = Parts {
            kind,
            requester: [0xA1, 0xB2],
            tag: 0xC3,
            bus: 0xD4,
            device: 0x1F,
            function: 5,
            offset: 0xABC,
            enables: 0x9,
            data: [0xE5, 0xF6, 0x07, 0x18],
        };
        let header = [kind, 0, 0, 1, 0xA1, 0xB2, 0xC3, 0x09, 0xD4, 0xFD, 0x0A, 0xBC];
        let data = if kind & 0x40 == 0 { &[][..] } else { &parts.data };
        assert_eq!(written(parts, 20), (0, [&header[..], data].concat()));
    }
}

#[test]
fn a_kind_outside_the_six_is_1_whatever_its_bit_7() {
    for kind in (0..=255).filter(|kind| !KINDS.contains(kind)) {
        assert_eq!(written(Parts { kind, ..P2 }, 24), refused(1), "{kind:02x}");
    }
}

/// The parts with each number, one after the other, as it is told.
fn with_each(number: u32) -> [Parts; 4] {
    let byte = number as u8;
    [
        Parts { device: byte, ..P2 },
        Parts { function: byte, ..P2 },
        Parts { enables: byte, ..P2 },
        Parts { offset: number, ..P2 },
    ]
}

#[test]
fn numbers_outside_their_ranges_are_1() {
    for number in 0..=255 {
        let right = [number <= 31, number <= 7, number <= 15, number % 4 == 0];
        for (parts, right) in with_each(number).into_iter().zip(right) {
            let expected = if right { 0 } else { 1 };
            assert_eq!(written(parts, 16).0, expected, "{parts:x?}");
        }
    }
    for offset in 0..0x3000 {
        let expected = if offset % 4 == 0 && offset <= 0xFFC { 0 } else { 1 };
        assert_eq!(written(Parts { offset, ..P2 }, 16).0, expected, "{offset:x}");
    }
    for offset in (12..32).map(|bit| 4 | 1 << bit).chain([0xFFFF_FFFC, 0xFFFF_F004]) {
        assert_eq!(written(Parts { offset, ..P2 }, 16), refused(1), "{offset:x}");
    }
}

#[test]
fn a_buffer_shorter_than_the_bytes_is_2_and_that_after_1() {
    for kind in KINDS {
        let needed = if kind & 0x40 == 0 { 12 } else { 16 };
        for room in 0..=24 {
            let parts = Parts { kind, ..P2 };
            let expected = if room < needed { 2 } else { 0 };
            assert_eq!(written(parts, room).0, expected);
            for wrong in [
                Parts { device: 32, ..parts },
                Parts { function: 8, ..parts },
                Parts { enables: 16, ..parts },
                Parts { offset: 2, ..parts },
                Parts {
                    offset: 0x1000,
                    ..parts
                },
                Parts {
                    kind: kind | 0x80,
                    ..parts
                },
            ] {
                assert_eq!(written(wrong, room), refused(1));
            }
        }
    }
}

const fn heard(completer: [u8; 2], tag: u8, said: Said) -> Heard {
    Heard {
        number: 0,
        completer,
        requester: [1, 0],
        tag,
        said: Some(said),
    }
}

#[test]
fn the_bench_sheets_completions_are_read() {
    assert_eq!(read_completion(&P1_REPLY), heard([0, 0], 8, Said::Unsupported));
    assert_eq!(read_completion(&P2_REPLY), heard([5, 0x18], 7, Said::WithoutData));
    let data = Said::WithData([8, 0, 0, 0]);
    assert_eq!(read_completion(&P3_REPLY), heard([5, 0x18], 8, data));
}

/// The number of a completion, after a look that a refusal tells nothing else.
fn number(bytes: &[u8]) -> u8 {
    let heard = read_completion(bytes);
    let nothing = Heard {
        number: heard.number,
        completer: [0; 2],
        requester: [0; 2],
        tag: 0,
        said: None,
    };
    assert!(
        heard.said.is_some() && heard.number == 0 || heard == nothing,
        "{heard:x?}"
    );
    heard.number
}

#[test]
fn each_length_of_each_first_byte() {
    for first in 0..=255 {
        let mut bytes = [0; 24];
        bytes[..16].copy_from_slice(&P3_REPLY);
        bytes[0] = first;
        bytes[3] = u8::from(first == 0x4A);
        for length in 0..=24 {
            let expected = match (first, length) {
                (_, 0..12) => 3,
                (0x4A, 16) | (0x0A, 12) => 0,
                (0x4A | 0x0A, _) => 5,
                _ => 4,
            };
            assert_eq!(number(&bytes[..length]), expected, "{first:02x}, {length} bytes");
        }
    }
}

/// Every value of every byte behind the first: which are refused is read from document 01 by eye.
#[test]
fn each_value_of_each_byte() {
    let fixed: [&[(usize, &[u8])]; 2] = [
        &[
            (1, &[0]),
            (2, &[0]),
            (3, &[0]),
            (6, &[0x00, 0x20]),
            (7, &[4]),
            (11, &[0]),
        ],
        &[(1, &[0]), (2, &[0]), (3, &[1]), (6, &[0x00]), (7, &[4]), (11, &[0])],
    ];
    for (reply, fixed) in [(&P1_REPLY[..], fixed[0]), (&P2_REPLY, fixed[0]), (&P3_REPLY, fixed[1])] {
        for place in 1..reply.len() {
            let may_have = fixed.iter().find(|(at, _)| *at == place).map(|(_, bytes)| bytes);
            for byte in 0..=255 {
                let mut other = reply.to_vec();
                other[place] = byte;
                let expected = if may_have.is_none_or(|bytes| bytes.contains(&byte)) {
                    0
                } else {
                    6
                };
                assert_eq!(number(&other), expected, "byte {place} of {reply:02x?} as {byte:02x}");
            }
        }
    }
}

#[test]
fn a_fault_of_a_lower_number_is_told_first() {
    let faults: [fn(&mut Vec<u8>); 4] = [
        |bytes| bytes.truncate(11),
        |bytes| bytes[0] = 0x8A,
        |bytes| bytes.push(0),
        |bytes| bytes[7] = 0,
    ];
    for first in 0..4 {
        for second in first..4 {
            let mut bytes = P1_REPLY.to_vec();
            faults[second](&mut bytes);
            faults[first](&mut bytes);
            assert_eq!(number(&bytes), 3 + first as u8);
        }
    }
}

/// Kinds that are asked for one after the other, and what the board of the next test says to each.
const SAYINGS: [(u8, Said); 9] = [
    (0x1B, Said::Unsupported),
    (0x04, Said::WithData([0x5A; 4])),
    (0x44, Said::WithoutData),
    (0x04, Said::WithData(P2.data)),
    (0x05, Said::Unsupported),
    (0x45, Said::Unsupported),
    (0x1B, Said::WithData([0xC3; 4])),
    (0x5B, Said::WithoutData),
    (0x1B, Said::WithData(P2.data)),
];

/// "what the board replies must read back as the same completion": what it says is what became of the request. No request
/// that is written has bit 7 set, so a board of either edition says the same.
#[test]
fn a_board_between_the_two() {
    for edition in [1, 2] {
        board_of_an_edition_between_the_two(edition);
    }
}

fn board_of_an_edition_between_the_two(edition: u32) {
    let description = Description {
        function: 0,
        a: 0x104,
        b: 0x00C,
        edition,
    };
    let (mut ordinary, mut trusted, rules, marks) = ([0x5A; 4096], [0xC3; 4096], [0xFF; 4096], [0; 4096]);
    let mut capture = None;
    for (kind, said) in SAYINGS {
        let (mut packet, mut reply) = ([0; 16], [0; 16]);
        let length = write_request(&Parts { kind, ..P2 }, &mut packet).length;
        let served = serve(
            description,
            capture,
            &mut ordinary,
            &rules,
            &marks,
            &mut trusted,
            &rules,
            &marks,
            &packet[..length],
            &mut reply,
        );
        capture = served.capture;
        let completer = if capture.is_some() { [5, 0x18] } else { [0, 0] };
        assert_eq!(
            read_completion(&reply[..served.length]),
            heard(completer, 7, said),
            "{kind:02x}"
        );
    }
}
