//! Ways to tell the numbers of a Multicast capability, by request 8/13: right ones and wrong ones.

use second::compare::{Reference, Subject};
use thawribbon::raw::Groups;

use crate::gatherer::{expect_reading_caught, expect_told_caught, numbers, or_else, with_told};
use crate::harness::{Wrong, expect_not_caught, word};

/// The eight bytes from a place on, the lowest first.
fn eight(bytes: &[u8], from: usize) -> u64 {
    u64::from(word(bytes, from)) | u64::from(word(bytes, from + 4)) << 32
}

#[test]
fn numbers_taken_from_words_are_not_caught() {
    expect_not_caught(with_told(|bytes, _| numbers(bytes)));
}

#[test]
fn numbers_taken_bit_by_bit_are_not_caught() {
    expect_not_caught(with_told(|bytes, _| {
        let bit = |place: usize| u64::from(bytes[place / 8] >> (place % 8) & 1);
        let bits = |from: usize, count: usize| (0..count).rev().fold(0, |sum, place| 2 * sum + bit(from + place));
        Groups {
            max_group: bits(32, 6),
            num_group: bits(48, 6),
            enable: bits(63, 1),
            index: bits(64, 6),
            base: bits(76, 52) << 12,
            receive: bits(128, 64),
            block_all: bits(192, 64),
        }
    }));
}

/// The seven numbers, to be changed one by one.
const NUMBERS: [fn(&mut Groups) -> &mut u64; 7] = [
    |groups| &mut groups.max_group,
    |groups| &mut groups.num_group,
    |groups| &mut groups.enable,
    |groups| &mut groups.index,
    |groups| &mut groups.base,
    |groups| &mut groups.receive,
    |groups| &mut groups.block_all,
];

#[test]
fn numbers_left_as_lent_with_a_refusal() {
    for refusal in [1, 8, 9, 13] {
        for left in NUMBERS {
            expect_reading_caught(Wrong::multicast(move |space, at, groups| {
                let before = *left(groups);
                let number = Reference.multicast(space, at, groups);
                if number == refusal {
                    *left(groups) = before;
                }
                number
            }));
        }
    }
}

#[test]
fn numbers_told_with_13_or_9() {
    for refusal in [13, 9] {
        for told in NUMBERS {
            expect_reading_caught(or_else(move |space, at, number, mut groups| {
                let mut bytes = [0; 0x28];
                let left = &space.get(at..)?;
                let length = left.len().min(0x28);
                bytes[..length].copy_from_slice(&left[..length]);
                *told(&mut groups) = *told(&mut numbers(&bytes));
                (number == refusal).then_some((number, groups))
            }));
        }
    }
}

#[test]
fn numbers_not_written() {
    for left in NUMBERS {
        expect_reading_caught(Wrong::multicast(move |space, at, groups| {
            let before = *left(groups);
            let number = Reference.multicast(space, at, groups);
            *left(groups) = before;
            number
        }));
    }
}

#[test]
fn each_bit_of_each_number_lost() {
    for (number, bits) in NUMBERS.into_iter().zip([0..6, 0..6, 0..1, 0..6, 12..64, 0..64, 0..64]) {
        for bit in bits {
            expect_told_caught(move |_, mut groups| {
                *number(&mut groups) &= !(1 << bit);
                groups
            });
        }
    }
}

/// A subject without a base, which the harness shows in full.
pub fn without_the_base() -> Wrong {
    with_told(|_, groups| Groups { base: 0, ..groups })
}

#[test]
fn the_base_told_otherwise() {
    expect_told_caught(|bytes, groups| Groups {
        base: eight(bytes, 8),
        ..groups
    });
    expect_told_caught(|bytes, groups| Groups {
        base: eight(bytes, 8) & !0x3F,
        ..groups
    });
    expect_told_caught(|_, groups| Groups {
        base: groups.base >> 12,
        ..groups
    });
    expect_told_caught(|_, groups| Groups {
        base: groups.base & 0xFFFF_FFFF,
        ..groups
    });
    expect_told_caught(|_, groups| Groups {
        base: groups.base.rotate_left(32),
        ..groups
    });
    expect_told_caught(|bytes, groups| Groups {
        base: eight(bytes, 8).swap_bytes() & !0xFFF,
        ..groups
    });
    expect_told_caught(|bytes, groups| Groups {
        base: eight(bytes, 4) & !0xFFF,
        ..groups
    });
    expect_told_caught(|bytes, groups| Groups {
        base: eight(bytes, 8) & !0x1FFF,
        ..groups
    });
    let width = |groups: &Groups| 1_u64 << groups.index;
    expect_told_caught(move |_, groups| Groups {
        base: groups.base & !(width(&groups) - 1),
        ..groups
    });
}

#[test]
fn a_register_told_otherwise() {
    let changes: [fn(&[u8], usize) -> u64; 6] = [
        |bytes, from| eight(bytes, from) & 0xFFFF_FFFF,
        |bytes, from| eight(bytes, from) & !0xFFFF_FFFF,
        |bytes, from| eight(bytes, from).rotate_left(32),
        |bytes, from| eight(bytes, from).swap_bytes(),
        |bytes, from| eight(bytes, from).reverse_bits(),
        |bytes, from| eight(bytes, from - 4),
    ];
    for change in changes {
        expect_told_caught(move |bytes, groups| Groups {
            receive: change(bytes, 0x10),
            ..groups
        });
        expect_told_caught(move |bytes, groups| Groups {
            block_all: change(bytes, 0x18),
            ..groups
        });
    }
    expect_told_caught(|bytes, groups| Groups {
        block_all: eight(bytes, 0x20),
        ..groups
    });
    expect_told_caught(|_, groups| Groups {
        receive: groups.block_all,
        block_all: groups.receive,
        ..groups
    });
    expect_told_caught(|_, groups| Groups {
        receive: groups.receive & !groups.block_all,
        ..groups
    });
}

/// Bits of a register for groups that there are not are told as they are.
#[test]
fn a_register_cut_to_the_groups_that_there_are() {
    expect_told_caught(|_, groups| Groups {
        receive: groups.receive & u64::MAX >> (63 - groups.num_group),
        ..groups
    });
    expect_told_caught(|_, groups| Groups {
        receive: groups.receive & u64::MAX >> (63 - groups.max_group),
        ..groups
    });
    expect_told_caught(|_, groups| Groups {
        block_all: groups.block_all & u64::MAX >> (63 - groups.num_group),
        ..groups
    });
    expect_told_caught(|_, groups| Groups {
        block_all: groups.block_all & u64::MAX >> (63 - groups.max_group),
        ..groups
    });
}

#[test]
fn the_index_taken_from_elsewhere() {
    expect_told_caught(|bytes, groups| Groups {
        index: u64::from(bytes[8]),
        ..groups
    });
    expect_told_caught(|bytes, groups| Groups {
        index: u64::from(bytes[5] & 63),
        ..groups
    });
    expect_told_caught(|bytes, groups| Groups {
        index: u64::from(bytes[12] & 63),
        ..groups
    });
    expect_told_caught(|bytes, groups| Groups {
        index: u64::from(bytes[15] & 63),
        ..groups
    });
    expect_told_caught(|bytes, groups| Groups {
        index: u64::from(bytes[8] & 31),
        ..groups
    });
    expect_told_caught(|bytes, groups| Groups {
        index: eight(bytes, 8) & 0xFFF,
        ..groups
    });
    expect_told_caught(|_, groups| Groups {
        index: groups.index.max(12),
        ..groups
    });
    expect_told_caught(|_, groups| Groups {
        index: groups.index * groups.enable,
        ..groups
    });
}

#[test]
fn max_group_and_num_group_told_otherwise() {
    expect_told_caught(|_, groups| Groups {
        max_group: groups.num_group,
        num_group: groups.max_group,
        ..groups
    });
    expect_told_caught(|_, groups| Groups {
        num_group: groups.max_group,
        ..groups
    });
    expect_told_caught(|_, groups| Groups {
        num_group: groups.num_group + 1,
        ..groups
    });
    expect_told_caught(|_, groups| Groups {
        max_group: groups.max_group + 1,
        ..groups
    });
    expect_told_caught(|bytes, groups| Groups {
        max_group: u64::from(bytes[4]),
        ..groups
    });
    expect_told_caught(|bytes, groups| Groups {
        num_group: u64::from(bytes[6]),
        ..groups
    });
    expect_told_caught(|bytes, groups| Groups {
        num_group: eight(bytes, 6) & 0x7FFF,
        ..groups
    });
    expect_told_caught(|_, groups| Groups {
        num_group: groups.num_group * groups.enable,
        ..groups
    });
}

#[test]
fn enable_told_otherwise() {
    expect_told_caught(|bytes, groups| Groups {
        enable: u64::from(bytes[7] >> 6 & 1),
        ..groups
    });
    expect_told_caught(|bytes, groups| Groups {
        enable: u64::from(bytes[6] >> 7),
        ..groups
    });
    expect_told_caught(|bytes, groups| Groups {
        enable: u64::from(bytes[5] >> 7),
        ..groups
    });
    expect_told_caught(|bytes, groups| Groups {
        enable: u64::from(bytes[7]),
        ..groups
    });
    expect_told_caught(|_, groups| Groups {
        enable: groups.enable << 15,
        ..groups
    });
    expect_told_caught(|_, groups| Groups {
        enable: 1 - groups.enable,
        ..groups
    });
}

/// Where it is not enabled, the other numbers are told all the same.
#[test]
fn nothing_told_of_a_capability_that_is_not_enabled() {
    expect_told_caught(|_, groups| if groups.enable == 0 { Groups::ZEROS } else { groups });
}
