//! Wrong ways to refuse a Multicast capability, by request 8/13.

use second::compare::{Reference, Subject};
use thawribbon::raw::Groups;

use crate::gatherer::{Habits, RIGHT, Step, expect_habits_caught, expect_reading_caught, numbers, or_else, read_by};
use crate::harness::{Wrong, expect_not_caught};

#[test]
fn the_form_of_these_with_nothing_wrong_is_not_caught() {
    expect_not_caught(read_by(RIGHT));
}

/// What is tested of the header.
#[test]
fn id_or_version_not_tested() {
    let tests: [fn(u32) -> bool; 6] = [
        |_| true,
        |header| header & 0xFFFF == 0x0012,
        |header| header >> 16 & 0xF == 1,
        |header| header & 0xF_00FF == 0x1_0012,
        |header| header & 0xF_FF00 == 0x1_0000,
        |header| header & 0x1_FFFF == 0x1_0012,
    ];
    for is_structure in tests {
        expect_habits_caught(Habits { is_structure, ..RIGHT });
    }
}

#[test]
fn another_id_or_version_taken() {
    let tests: [fn(u32) -> bool; 6] = [
        |header| header & 0xFFFF == 0x0012 && header >> 16 & 0xF >= 1,
        |header| header & 0xFFFF == 0x0012 && header >> 16 & 0xF <= 1,
        |header| matches!(header & 0xF_FFFF, 0x1_0012 | 0x1_0023),
        |header| matches!(header & 0xF_FFFF, 0x1_0012 | 0x1_1200),
        |header| matches!(header & 0xF_FFFF, 0x1_0012 | 0x2_0012),
        |header| matches!(header & 0xF_FFFF, 0x1_0012 | 0x1_0000),
    ];
    for is_structure in tests {
        expect_habits_caught(Habits { is_structure, ..RIGHT });
    }
}

#[test]
fn each_bit_of_id_and_version_not_tested() {
    for bit in 0..20 {
        expect_reading_caught(Wrong::multicast(move |space, at, groups| {
            let mut copy = space.to_vec();
            if at <= 0xFFC && space.len() == 4096 && at % 4 == 0 {
                let byte = &mut copy[at + bit / 8];
                let right = [0x12, 0x00, 0x01][bit / 8];
                *byte = *byte & !(1 << (bit % 8)) | right & 1 << (bit % 8);
            }
            Reference.multicast(&copy, at, groups)
        }));
    }
}

#[test]
fn the_next_pointer_taken_for_a_part_of_the_version() {
    let is_structure = |header: u32| header & 0xFF_FFFF == 0x1_0012;
    expect_habits_caught(Habits { is_structure, ..RIGHT });
    let is_structure = |header: u32| header == 0x1_0012;
    expect_habits_caught(Habits { is_structure, ..RIGHT });
}

#[test]
fn another_least_length() {
    for least_bytes in [0x00, 0x04, 0x10, 0x18, 0x1C, 0x20, 0x24, 0x29, 0x2C, 0x30] {
        expect_habits_caught(Habits { least_bytes, ..RIGHT });
    }
}

#[test]
fn the_steps_in_another_order() {
    use Step::{Length, Numbers, Structure};
    for order in [
        [Length, Structure, Numbers],
        [Structure, Numbers, Length],
        [Numbers, Structure, Length],
        [Length, Numbers, Structure],
        [Numbers, Length, Structure],
    ] {
        expect_habits_caught(Habits { order, ..RIGHT });
    }
}

#[test]
fn num_group_over_max_group_not_noticed() {
    let tests: [fn(&Groups) -> bool; 5] = [
        |groups| groups.enable == 1 && groups.index < 12,
        |groups| groups.enable == 1 && (groups.num_group > groups.max_group || groups.index < 12),
        |groups| groups.enable == 0 && groups.num_group > groups.max_group || groups.enable == 1 && groups.index < 12,
        |groups| groups.num_group > groups.max_group + 1 || groups.enable == 1 && groups.index < 12,
        |groups| groups.num_group > groups.max_group && groups.enable == 1 && groups.index < 12,
    ];
    for is_unsound in tests {
        expect_habits_caught(Habits { is_unsound, ..RIGHT });
    }
}

#[test]
fn num_group_as_max_group_refused() {
    let is_unsound = |groups: &Groups| groups.num_group >= groups.max_group || groups.enable == 1 && groups.index < 12;
    expect_habits_caught(Habits { is_unsound, ..RIGHT });
    let is_unsound = |groups: &Groups| (RIGHT.is_unsound)(groups) || groups.num_group == 63;
    expect_habits_caught(Habits { is_unsound, ..RIGHT });
}

#[test]
fn an_index_under_12_not_noticed() {
    expect_habits_caught(Habits {
        is_unsound: |groups| groups.num_group > groups.max_group,
        ..RIGHT
    });
    for bound in 0..12 {
        expect_reading_caught(or_else(move |space, at, number, _| {
            let read = numbers(space.get(at..at.checked_add(0x28)?)?);
            let taken = read.num_group <= read.max_group && read.index >= bound;
            (number == 13 && taken).then_some((0, read))
        }));
    }
}

#[test]
fn an_index_under_12_refused_while_not_enabled() {
    expect_habits_caught(Habits {
        is_unsound: |groups| groups.num_group > groups.max_group || groups.index < 12,
        ..RIGHT
    });
    expect_habits_caught(Habits {
        is_unsound: |groups| groups.num_group > groups.max_group || groups.enable == 0 && groups.index < 12,
        ..RIGHT
    });
}

#[test]
fn an_index_of_12_or_63_refused() {
    let tests: [fn(&Groups) -> bool; 3] = [
        |groups| (RIGHT.is_unsound)(groups) || groups.enable == 1 && groups.index == 12,
        |groups| (RIGHT.is_unsound)(groups) || groups.enable == 1 && groups.index == 63,
        |groups| (RIGHT.is_unsound)(groups) || groups.index > 51,
    ];
    for is_unsound in tests {
        expect_habits_caught(Habits { is_unsound, ..RIGHT });
    }
}

/// Windows that go past 2^64, or that have no group, are no cause for a refusal.
#[test]
fn sound_capabilities_refused() {
    let tests: [fn(&Groups) -> bool; 5] = [
        |groups| {
            groups
                .base
                .checked_add((groups.num_group + 1) << groups.index)
                .is_none()
        },
        |groups| groups.base == 0,
        |groups| groups.enable == 0,
        |groups| groups.receive & !(u64::MAX >> (63 - groups.max_group)) != 0,
        |groups| groups.block_all & !(u64::MAX >> (63 - groups.num_group)) != 0,
    ];
    for refused in tests {
        expect_reading_caught(or_else(move |_, _, number, groups| {
            (number == 0 && refused(&groups)).then_some((13, Groups::ZEROS))
        }));
    }
}

#[test]
fn another_number_told() {
    for (right, wrong) in [
        (13, 8),
        (13, 9),
        (13, 10),
        (13, 1),
        (9, 1),
        (9, 8),
        (8, 1),
        (8, 0),
        (1, 8),
        (1, 9),
    ] {
        expect_reading_caught(or_else(move |_, _, number, groups| {
            (number == right).then_some((wrong, groups))
        }));
    }
}

#[test]
fn offsets_of_another_range() {
    let ranges: [fn(usize) -> bool; 8] = [
        |at| at % 4 == 0 && (0x100..=0xFD8).contains(&at),
        |at| at % 4 == 0 && (0x104..=0xFFC).contains(&at),
        |at| at % 4 == 0 && (0x100..=0xFF8).contains(&at),
        |at| at % 4 == 0 && (0x040..=0xFFC).contains(&at),
        |at| at % 4 == 0 && at <= 0xFFC,
        |at| at % 2 == 0 && (0x100..=0xFFC).contains(&at),
        |at| (0x100..=0xFFC).contains(&at),
        |at| at % 4 == 0 && at >= 0x100,
    ];
    for is_offset in ranges {
        expect_habits_caught(Habits { is_offset, ..RIGHT });
    }
}

#[test]
fn an_offset_cut_or_rounded() {
    let cuts: [fn(usize) -> usize; 5] = [
        |at| at & !3,
        |at| at & 0xFFF,
        |at| at & 0xFFFF,
        |at| at & 0xFFFF_FFFF,
        |at| (at + 3) & !3,
    ];
    for cut in cuts {
        expect_reading_caught(Wrong::multicast(move |space, at, groups| {
            let at = if at > usize::MAX - 3 { at } else { cut(at) };
            Reference.multicast(space, at, groups)
        }));
    }
}

#[test]
fn a_size_of_the_space_not_tested() {
    let sizes: [fn(usize) -> bool; 4] = [
        |_| true,
        |length| length >= 4096,
        |length| length <= 4096,
        |length| length / 4 == 1024,
    ];
    for is_size in sizes {
        expect_habits_caught(Habits { is_size, ..RIGHT });
    }
}

#[test]
fn a_reading_wrong_at_one_offset() {
    for wrong in [0x100, 0x104, 0x7FC, 0xFD4, 0xFD8] {
        expect_reading_caught(or_else(move |_, at, number, _| {
            (number == 0 && at == wrong).then_some((9, Groups::ZEROS))
        }));
    }
    for wrong in (0xFDC..0x1000).step_by(4) {
        expect_reading_caught(or_else(move |_, at, number, groups| {
            (number == 9 && at == wrong).then_some((0, groups))
        }));
    }
}
