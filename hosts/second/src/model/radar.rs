//! Request 8/13, sentence by sentence, on the model: a capability in a space, and a radar's group at a few ports.

use super::{Groups, Judged, Verdict, judge, multicast};

/// Four groups of 4 KiB each from 8_0000_0000h on.
const RADAR: Groups = Groups {
    max_group: 63,
    num_group: 3,
    enable: 1,
    index: 12,
    base: 0x8_0000_0000,
    receive: 0,
    block_all: 0,
};
const REFUSED: Judged = Judged {
    number: 1,
    verdict: None,
};
/// The numbers of a record that is refused.
const NOTHING: Groups = Groups {
    max_group: 0,
    num_group: 0,
    enable: 0,
    index: 0,
    base: 0,
    receive: 0,
    block_all: 0,
};

/// A space of zeros with the header, Max Group 63 and what follows at an offset, as far as it goes.
fn space_with(at: usize, bytes: &[u8]) -> Vec<u8> {
    let mut space = vec![0; 4096];
    let all: Vec<u8> = [0x12, 0x00, 0x01, 0x00, 0x3F, 0x00]
        .iter()
        .chain(bytes)
        .copied()
        .collect();
    let length = all.len().min(4096 - at);
    space[at..at + length].copy_from_slice(&all[..length]);
    space
}

fn number(space: &[u8], at: usize) -> u8 {
    let read = multicast(space, at);
    assert!(read.number == 0 || read.groups == NOTHING);
    read.number
}

fn judged(verdict: Verdict) -> Judged {
    Judged {
        number: 0,
        verdict: Some(verdict),
    }
}

/// What becomes of an address that enters by the only port.
fn alone(groups: Groups, address: u64) -> Judged {
    judge(&[groups], 0, address)
}

fn hit(group: u8) -> Judged {
    judged(Verdict::Leaves { group, ports: 0 })
}

const NO_HIT: Judged = Judged {
    number: 0,
    verdict: Some(Verdict::NoHit),
};

/// What is read where one bit of a sound structure is turned round, or the number of the refusal.
fn with_bit_turned(bit: usize) -> Result<Groups, u8> {
    let mut groups = Groups {
        max_group: 63,
        ..NOTHING
    };
    match bit {
        0..=19 => return Err(8),
        63 => return Err(13),
        32..=37 => groups.max_group ^= 1 << (bit - 32),
        48..=53 => groups.num_group = 1 << (bit - 48),
        64..=69 => groups.index = 1 << (bit - 64),
        76..=127 => groups.base = 1 << (bit - 64),
        128..=191 => groups.receive = 1 << (bit - 128),
        192..=255 => groups.block_all = 1 << (bit - 192),
        _ => {}
    }
    Ok(groups)
}

#[test]
fn each_bit_of_the_structure_counts_in_its_field_or_not_at_all() {
    for at in [0x100, 0x7A4, 0xFD8] {
        for bit in 0..8 * 0x28 {
            let mut space = space_with(at, &[]);
            space[at + bit / 8] ^= 1 << (bit % 8);
            let read = multicast(&space, at);
            let expected = with_bit_turned(bit);
            assert_eq!(read.number, expected.err().unwrap_or(0), "bit {bit}");
            assert_eq!(read.groups, expected.unwrap_or(NOTHING), "bit {bit}");
        }
    }
}

#[test]
fn it_is_asked_for_at_the_offsets_of_a_dvsec_and_28h_bytes_have_to_be_left() {
    for at in (0..0x1100).chain([1 << 32, usize::MAX - 3, usize::MAX]) {
        let space = space_with(at.min(0xFFC), &[]);
        let expected = match at {
            _ if at % 4 != 0 || !(0x100..=0xFFC).contains(&at) => 1,
            ..=0xFD8 => 0,
            _ => 9,
        };
        assert_eq!(number(&space, at), expected, "{at:03x}");
    }
    for length in [0, 4095, 4097] {
        let mut space = space_with(0x100, &[]);
        space.resize(length, 0);
        assert_eq!(number(&space, 0x100), 1);
    }
}

#[test]
fn not_this_structure_comes_before_the_length_and_that_before_13() {
    // Enabled with an index of 0, which is 13.
    let mut space = space_with(0xFDC, &[0x00, 0x80]);
    assert_eq!(number(&space, 0xFDC), 9);
    space[0xFDE] = 0x02;
    assert_eq!(number(&space, 0xFDC), 8);
    let mut space = space_with(0xFD8, &[0x00, 0x80]);
    assert_eq!(number(&space, 0xFD8), 13);
    space[0xFD8] = 0x13;
    assert_eq!(number(&space, 0xFD8), 8);
}

#[test]
fn num_group_over_max_group_is_13_with_enable_and_without() {
    for max_group in 0..64 {
        for num_group in 0..64 {
            for enable in [0x00, 0x80] {
                let mut space = space_with(0x100, &[num_group, enable, 0x0C]);
                space[0x104] = max_group;
                let expected = if num_group > max_group { 13 } else { 0 };
                assert_eq!(number(&space, 0x100), expected, "{max_group}, {num_group}, {enable}");
            }
        }
    }
}

#[test]
fn an_index_under_12_is_13_while_enabled_only() {
    for index in 0..64 {
        assert_eq!(number(&space_with(0x100, &[0, 0x00, index]), 0x100), 0);
        let expected = if index < 12 { 13 } else { 0 };
        assert_eq!(
            number(&space_with(0x100, &[0, 0x80, index]), 0x100),
            expected,
            "{index}"
        );
    }
}

/// Records that no space gives, each by one of its numbers: such as have a bit beyond it, and such as are 13.
fn records_that_no_space_gives() -> Vec<Groups> {
    let with = |change: &dyn Fn(&mut Groups)| {
        let mut groups = RADAR;
        change(&mut groups);
        groups
    };
    let mut records = vec![with(&|groups| groups.max_group = 2)];
    records.push(with(&|groups| (groups.max_group, groups.enable) = (2, 0)));
    records.extend((0..12).map(|index| with(&|groups| groups.index = index)));
    records.extend((6..64).map(|bit| with(&|groups| groups.max_group |= 1 << bit)));
    records.extend((6..64).map(|bit| with(&|groups| groups.num_group = 1 << bit)));
    records.extend((1..64).map(|bit| with(&|groups| groups.enable |= 1 << bit)));
    records.extend((1..64).map(|bit| with(&|groups| groups.enable = 1 << bit)));
    records.extend((6..64).map(|bit| with(&|groups| groups.index |= 1 << bit)));
    records.extend((0..12).map(|bit| with(&|groups| groups.base |= 1 << bit)));
    records
}

#[test]
fn a_record_the_reading_cannot_give_is_1_at_every_port() {
    for record in records_that_no_space_gives() {
        for length in [1, 2, 32] {
            for place in [0, length / 2, length - 1] {
                let mut ports = vec![RADAR; length];
                ports[place] = record;
                assert_eq!(judge(&ports, 0, RADAR.base), REFUSED, "{record:?}");
                assert_eq!(judge(&ports, length - 1, 0), REFUSED, "{record:?}");
            }
        }
    }
}

#[test]
fn a_record_that_was_read_is_taken() {
    let mut seed = 1_u64;
    let mut taken = 0;
    for _ in 0..2000 {
        let mut space = space_with(0x100, &[]);
        for byte in &mut space[0x106..0x128] {
            seed = seed.wrapping_mul(6_364_136_223_846_793_005).wrapping_add(1);
            *byte = (seed >> 56) as u8;
        }
        let read = multicast(&space, 0x100);
        if read.number == 0 {
            taken += 1;
            assert_eq!(alone(read.groups, seed).number, 0);
        }
    }
    assert!(taken > 500, "{taken}");
    assert_eq!(alone(NOTHING, 0), NO_HIT);
}

#[test]
fn up_to_32_ports_and_one_of_them_is_entered_by() {
    for length in [0, 1, 2, 31, 32, 33, 34, 256, 257] {
        let ports = vec![RADAR; length];
        for entering in [0, 1, 31, 32, 33, 256, 1 << 32, usize::MAX] {
            let good = length <= 32 && entering < length;
            let expected = if good { hit(0) } else { REFUSED };
            assert_eq!(judge(&ports, entering, RADAR.base), expected, "{length}, {entering}");
        }
    }
}

#[test]
fn groups_go_from_the_base_on_up_to_num_group() {
    for group in 0..=3 {
        let first = RADAR.base + 0x1000 * u64::from(group);
        assert_eq!(alone(RADAR, first), hit(group));
        assert_eq!(alone(RADAR, first + 0xFFF), hit(group));
    }
    for address in [0, RADAR.base - 1, RADAR.base + 0x4000, u64::MAX] {
        assert_eq!(alone(RADAR, address), NO_HIT);
    }
    assert_eq!(alone(Groups { enable: 0, ..RADAR }, RADAR.base), NO_HIT);
}

#[test]
fn addresses_near_2_to_the_64_come_out_right() {
    let last = Groups { base: !0xFFF, ..RADAR };
    assert_eq!(alone(last, u64::MAX), hit(0));
    assert_eq!(alone(last, !0xFFF), hit(0));
    assert_eq!(alone(last, !0xFFF - 1), NO_HIT);
    assert_eq!(alone(last, 0), NO_HIT);
    let halves = Groups {
        base: 0,
        index: 63,
        ..RADAR
    };
    assert_eq!(alone(halves, (1 << 63) - 1), hit(0));
    assert_eq!(alone(halves, 1 << 63), hit(1));
    assert_eq!(alone(halves, u64::MAX), hit(1));
    let half = Groups { num_group: 0, ..halves };
    assert_eq!(alone(half, u64::MAX), NO_HIT);
    let past = Groups {
        base: 1 << 63,
        num_group: 63,
        index: 62,
        ..RADAR
    };
    assert_eq!(alone(past, u64::MAX), hit(1));
    assert_eq!(alone(past, (1 << 63) - 1), NO_HIT);
}

/// Three ports with different bases, of which the middle one is entered by. The other two are not enabled.
#[test]
fn block_all_is_the_entering_ports_and_receive_the_other_ports() {
    let other = Groups {
        enable: 0,
        index: 0,
        block_all: u64::MAX,
        ..NOTHING
    };
    for group in 0..=3 {
        let address = RADAR.base + 0x1000 * u64::from(group);
        for bits in 0..8_u64 {
            let receive = |place: u32| (bits >> place & 1) << group;
            let mut ports = [
                Groups {
                    receive: receive(0),
                    ..other
                },
                Groups {
                    receive: receive(1),
                    block_all: !(1 << group),
                    ..RADAR
                },
                Groups {
                    receive: receive(2),
                    base: 1 << 40,
                    ..other
                },
            ];
            let left_by = bits as u32 & 0b101;
            assert_eq!(
                judge(&ports, 1, address),
                judged(Verdict::Leaves { group, ports: left_by })
            );
            ports[1].block_all = 1 << group;
            assert_eq!(judge(&ports, 1, address), judged(Verdict::Dropped { group }));
            assert_eq!(judge(&ports, 1, RADAR.base - 1), NO_HIT);
        }
    }
}
