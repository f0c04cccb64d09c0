//! Multicast capabilities: their fields at every edge, every bit of one, every offset and length, and each number.
#![forbid(unsafe_code)]

mod common;

use common::multicast::{CAPABILITY, Drawn, FOUR, capability, fields, number, reads, space_with};
use common::{SPACE, lengths, resized};
use thawribbon::{GROUPS, Groups, Refusal};

/// A capability with these fields is read, or refused with the number that they get.
fn is_read(groups: Groups) {
    reads(&space_with(&capability(groups), 0x100), 0x100, number(groups), groups);
}

/// Bytes written out by hand: every field is another number, and every bit that is no field's is 1.
#[test]
fn one_capability() {
    let mut bytes = [0xFF; CAPABILITY];
    bytes[..0x10].copy_from_slice(&[
        0x12, 0x00, 0xF1, 0xFF, 0x6A, 0xFF, 0xE9, 0xFF, 0x8D, 0xFF, 0xCD, 0xAB, 0x89, 0x67, 0x45, 0x23,
    ]);
    bytes[0x10..0x18].copy_from_slice(&[1, 2, 3, 4, 5, 6, 7, 8]);
    bytes[0x18..0x20].copy_from_slice(&[0xF1, 0xF2, 0xF3, 0xF4, 0xF5, 0xF6, 0xF7, 0xF8]);
    let expected = Groups {
        max_group: 0x2A,
        num_group: 0x29,
        enable: 1,
        index: 0x0D,
        base: 0x2345_6789_ABCD_F000,
        receive: 0x0807_0605_0403_0201,
        block_all: 0xF8F7_F6F5_F4F3_F2F1,
    };
    reads(&space_with(&bytes, 0x100), 0x100, 0, expected);
    assert_eq!(fields(&bytes), expected);
}

/// ID and version are refused with 8; all else is the fields' or nobody's.
#[test]
fn every_bit_of_a_capability() {
    for enable in [0, 1] {
        let groups = Groups {
            max_group: 40,
            num_group: 20,
            enable,
            index: 13,
            base: 0x1234_5678_9000,
            receive: 0x00FF_00FF_00FF_00FF,
            block_all: 0x0F0F_0F0F_0F0F_0F0F,
        };
        for bit in 0..8 * CAPABILITY {
            let mut bytes = capability(groups);
            bytes[bit / 8] ^= 1 << (bit % 8);
            let expected = if bit < 20 { 8 } else { number(fields(&bytes)) };
            reads(&space_with(&bytes, 0x100), 0x100, expected, fields(&bytes));
        }
    }
}

#[test]
fn every_id_and_version() {
    for id in 0..=u16::MAX {
        let mut bytes = capability(FOUR);
        bytes[..2].copy_from_slice(&id.to_le_bytes());
        let expected = if id == thawribbon::MULTICAST_ID { 0 } else { 8 };
        reads(&space_with(&bytes, 0x100), 0x100, expected, FOUR);
    }
    for version in 0..=255 {
        let mut bytes = capability(FOUR);
        bytes[2] = version;
        let expected = if version % 16 == 1 { 0 } else { 8 };
        reads(&space_with(&bytes, 0x100), 0x100, expected, FOUR);
    }
}

#[test]
fn every_max_group_and_num_group() {
    for max_group in 0..GROUPS as u64 {
        for num_group in 0..GROUPS as u64 {
            for enable in [0, 1] {
                let groups = Groups {
                    max_group,
                    num_group,
                    enable,
                    ..FOUR
                };
                assert_eq!(number(groups), if num_group <= max_group { 0 } else { 13 });
                is_read(groups);
            }
        }
    }
}

#[test]
fn every_index_position() {
    for index in 0..64 {
        for enable in [0, 1] {
            let groups = Groups { index, enable, ..FOUR };
            assert_eq!(number(groups), if index >= 12 || enable == 0 { 0 } else { 13 });
            is_read(groups);
        }
    }
}

#[test]
fn every_bit_of_base_receive_and_block_all() {
    for bit in 0..64 {
        is_read(Groups {
            base: 1 << bit & !0xFFF,
            receive: 1 << bit,
            block_all: !(1 << bit),
            ..FOUR
        });
    }
    for (base, register) in [(0, 0), (0xFFFF_FFFF_FFFF_F000, u64::MAX)] {
        is_read(Groups {
            base,
            receive: register,
            block_all: register,
            ..FOUR
        });
    }
}

/// A header at every word: it is read from 100h to FD8h, at multiples of 4, and up to FFCh too few bytes are left.
#[test]
fn every_offset() {
    let space = [0x12, 0x00, 0x01, 0x00].repeat(SPACE / 4);
    let expected = fields(&space);
    for at in (0..0x1010).chain([0xFFFC, 0x1_0100, 0x1_0000_0100, usize::MAX - 3, usize::MAX]) {
        let may_stand = at % 4 == 0 && (0x100..=0xFFC).contains(&at);
        let number = match at {
            _ if !may_stand => 1,
            ..=0xFD8 => 0,
            _ => 9,
        };
        reads(&space, at, number, expected);
    }
}

#[test]
fn spaces_of_every_length() {
    let whole = space_with(&capability(FOUR), 0x100);
    for length in lengths() {
        reads(
            &resized(&whole, length),
            0x100,
            if length == SPACE { 0 } else { 1 },
            FOUR,
        );
    }
}

/// The causes of 1, 8, 9 and 13 on one call, each there or not: the first is given.
#[test]
fn the_first_number_is_given() {
    for causes in 0..16 {
        let applies = |place: u8| causes >> place & 1 == 1;
        let at = if applies(2) { 0xFDC } else { 0xFD8 };
        let mut bytes = capability(Groups {
            max_group: if applies(3) { 2 } else { 3 },
            ..FOUR
        });
        if applies(1) {
            bytes[0] = 0x23;
        }
        let mut space = space_with(&bytes, at);
        if applies(0) {
            space.pop();
        }
        let first = (0..4).find(|&place| applies(place));
        let number = first.map_or(0, |place| [1, 8, 9, 13][usize::from(place)]);
        reads(&space, at, number, Groups { max_group: 3, ..FOUR });
    }
}

#[test]
fn drawn_capabilities_as_they_are_read_another_way() {
    let (mut drawn, mut refused) = (Drawn(1), 0);
    for _ in 0..20_000 {
        let mut bytes = capability(FOUR);
        bytes[4..].fill_with(|| drawn.number() as u8);
        let expected = fields(&bytes);
        reads(&space_with(&bytes, 0xFD8), 0xFD8, number(expected), expected);
        refused += usize::from(number(expected) == 13);
    }
    assert!((4_000..16_000).contains(&refused), "{refused}");
}

#[test]
fn a_question_mark_stops_at_a_port_that_cannot_be_read() {
    fn all(spaces: &[Vec<u8>]) -> Result<Vec<Groups>, Refusal> {
        spaces.iter().map(|space| Groups::read(space, 0x100)).collect()
    }
    let good = space_with(&capability(FOUR), 0x100);
    assert_eq!(all(&[good.clone(), good.clone()]), Ok(vec![FOUR; 2]));
    let wrong = space_with(&capability(Groups { index: 11, ..FOUR }), 0x100);
    assert_eq!(all(&[good.clone(), wrong]), Err(Refusal::WrongGroups));
    assert_eq!(all(&[vec![0; SPACE], good]), Err(Refusal::OtherStructure));
}
