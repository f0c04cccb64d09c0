//! Request 9/13 on the model, sentence by sentence: two editions of byte 0.

use super::status_bits::{Board, LENT, packet};
use super::{Parts, Port, Served, counts_as_trusted, route, write_request};

const CODES: [u8; 6] = [0x04, 0x44, 0x05, 0x45, 0x1B, 0x5B];
/// The forms of byte 2: digest and poison.
const FORMS: [u8; 4] = [0x00, 0x40, 0x80, 0xC0];
/// Editions that are neither 1 nor 2. Some would be in fewer bits, as signed numbers or with their bytes in another order.
const OTHERS: [u32; 14] = [
    0,
    3,
    4,
    0x101,
    0x102,
    0x201,
    0x1_0001,
    0x1_0002,
    0x0100_0000,
    0x0200_0000,
    0x8000_0001,
    0x8000_0002,
    0xFFFF_FFFE,
    0xFFFF_FFFF,
];

/// A board of an edition. It has captured bus 5 and device 3.
fn board(edition: u32) -> Board {
    Board {
        edition,
        ..Board::new()
    }
}

/// A packet of a first byte with these bits of byte 2, as long as its type code and digest want it. Where bit 7 of the
/// first byte is left out, that is the same length.
fn packet_of(first: u8, form: u8) -> Vec<u8> {
    let mut bytes = packet(first, 0x010, 0x0F, [0xA5; 4]).to_vec();
    bytes[2] = form;
    bytes.extend([0xD1; 4]);
    bytes.truncate(12 + 4 * (usize::from(first >> 6 & 1) + usize::from(form >> 7)));
    bytes
}

/// All that a call leaves: the answer, the spaces and the reply.
type Left = (Served, [Vec<u8>; 2], [u8; 16]);

fn left(edition: u32, packet: &[u8]) -> Left {
    let mut board = board(edition);
    let served = board.serve(packet);
    let [ordinary, ..] = board.ordinary;
    let [trusted, ..] = board.trusted;
    (served, [ordinary, trusted], board.reply)
}

/// A refusal that leaves all as it was.
fn refused(number: u8) -> Left {
    let board = board(1);
    let served = Served {
        number,
        length: 0,
        capture: Some((5, 3)),
    };
    let ([ordinary, ..], [trusted, ..]) = (board.ordinary, board.trusted);
    (served, [ordinary, trusted], [LENT; 16])
}

#[test]
fn edition_1_ignores_bit_7_as_now() {
    for (code, form) in CODES.into_iter().flat_map(|code| FORMS.map(|form| (code, form))) {
        let (with, without) = (packet_of(code | 0x80, form), packet_of(code, form));
        let answered = left(1, &with);
        assert_eq!(answered.0.number, 0);
        assert_eq!(answered, left(1, &without), "{code:02x} {form:02x}");
    }
    for first in (0x80..=0xFF).filter(|first| !CODES.contains(&(first & 0x7F))) {
        assert_eq!(left(1, &packet_of(first, 0)), refused(4));
    }
}

#[test]
fn edition_2_gives_answer_4_when_it_is_set() {
    for (first, form) in (0x80..=0xFF).flat_map(|first| FORMS.map(|form| (first, form))) {
        assert_eq!(left(2, &packet_of(first, form)), refused(4), "{first:02x} {form:02x}");
    }
}

/// "For packets and for walks the lowest applicable number is given": 3 comes before, 5 and 6 come after.
#[test]
fn what_is_lower_is_given_before_it_and_what_is_higher_is_not() {
    for code in CODES {
        let right = packet_of(code | 0x80, 0);
        for length in 0..12 {
            assert_eq!(left(2, &right[..length]), refused(3));
            assert_eq!(left(1, &right[..length]), refused(3));
        }
        let longer = [&right[..], &[0; 1]].concat();
        assert_eq!([left(2, &longer), left(1, &longer)], [4, 5].map(refused));
        let mut other_length = right;
        other_length[3] = 2;
        assert_eq!([left(2, &other_length), left(1, &other_length)], [4, 6].map(refused));
    }
}

#[test]
fn a_short_reply_comes_before_it() {
    for code in CODES {
        let packet = packet_of(code | 0x80, 0);
        assert_eq!(board(2).serve_into(&packet, 15).number, 2);
        assert_eq!(board(3).serve_into(&packet, 15).number, 1);
    }
}

#[test]
fn any_other_edition_is_answer_1() {
    for edition in OTHERS {
        for first in 0..=0xFF {
            assert_eq!(left(edition, &packet_of(first, 0)), refused(1), "{edition:x}");
        }
        for length in 0..=12 {
            assert_eq!(left(edition, &packet_of(0x04, 0)[..length]), refused(1));
        }
    }
}

#[test]
fn packets_with_bit_7_clear_are_answered_alike_in_either_edition() {
    for (first, form) in (0..0x80).flat_map(|first| FORMS.map(|form| (first, form))) {
        let right = packet_of(first, form);
        assert_eq!(left(1, &right), left(2, &right), "{first:02x} {form:02x}");
        for length in 0..right.len() {
            assert_eq!(left(1, &right[..length]), left(2, &right[..length]));
        }
    }
}

#[test]
fn the_empty_packet_has_no_bit_7() {
    assert_eq!([left(1, &[]), left(2, &[])], [3, 3].map(refused));
}

/// "Later revisions of Base take bit 7 of byte 0": of no other byte.
#[test]
fn bits_7_of_other_bytes_are_as_before() {
    for place in 1..12 {
        for code in CODES {
            let mut packet = packet_of(code, 0);
            packet[place] ^= 0x80;
            assert_eq!(left(2, &packet), left(1, &packet), "{place}");
        }
    }
}

/// What a router with one port, for bus 5 and with TCS routing, lets through.
fn routed(packet: &[u8]) -> Vec<u8> {
    let port = Port {
        secondary: 5,
        subordinate: 5,
        tcs: true,
    };
    let mut leaving = [LENT; 20];
    let routed = route(&[port], packet, &mut leaving);
    assert_eq!((routed.number, routed.port), (0, Some(0)));
    leaving[..routed.length].to_vec()
}

/// What leaves has its bit 7, and a board of edition 2 behind the router gives 4.
#[test]
fn the_router_keeps_ignoring_it() {
    for (code, form) in [0x05, 0x45, 0x1B, 0x5B]
        .into_iter()
        .flat_map(|code| FORMS.map(|form| (code, form)))
    {
        let with = routed(&packet_of(code | 0x80, form));
        let without = routed(&packet_of(code, form));
        assert_eq!((with[0], &with[1..]), (without[0] | 0x80, &without[1..]));
        assert_eq!(left(2, &with), refused(4));
        assert_eq!(left(1, &with), left(2, &without));
        assert_eq!(left(1, &with).0.number, 0);
    }
}

/// What is written has no bit 7: both editions read it alike.
#[test]
fn what_the_asking_side_writes_is_answered_alike() {
    for kind in CODES {
        let parts = Parts {
            kind,
            requester: [0xFF; 2],
            tag: 0xFF,
            bus: 5,
            device: 3,
            function: 0,
            offset: 0x010,
            enables: 0x0F,
            data: [0xFF; 4],
        };
        let mut buffer = [LENT; 16];
        let length = write_request(&parts, &mut buffer).length;
        let written = &buffer[..length];
        assert_eq!(left(1, written), left(2, written));
        assert_eq!(left(2, written).0.number, 0);
    }
}

#[test]
fn under_edition_2_a_packet_with_bit_7_set_counts_as_ordinary() {
    let trusted =
        |edition, byte: u8| [&[byte][..], &[byte; 12], &[byte; 24]].map(|packet| counts_as_trusted(packet, edition));
    for edition in [1, 2] {
        assert!(!counts_as_trusted(&[], edition));
        for byte in 0..=0xFF {
            let due = match edition {
                1 => matches!(byte, 0x1B | 0x5B | 0x9B | 0xDB),
                _ => matches!(byte, 0x1B | 0x5B),
            };
            assert_eq!(trusted(edition, byte), [due; 3], "{edition} {byte:02x}");
        }
    }
}
