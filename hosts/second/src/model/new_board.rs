//! Request 10/13, sentence by sentence, on the model: structures, proposals, and what a walk lists of them then.

use super::{List, Structure, Walked, check_layout, plan_layout, walk, write_layout};

/// What a room is filled with before it is lent.
const LENT: u16 = 0xAAAA;

const fn structure(length: u16) -> Structure {
    Structure {
        id: 0x0023,
        version: 1,
        length,
    }
}

fn of_lengths(lengths: &[u16]) -> Vec<Structure> {
    lengths.iter().map(|&length| structure(length)).collect()
}

/// The number of a plan in a room of so many places, and what it has of a proposal. The rest of the room has to stay.
fn planned(structures: &[Structure], places: usize) -> (u8, Vec<u16>) {
    let mut room = vec![LENT; places];
    let number = plan_layout(structures, &mut room);
    let count = if number == 0 { structures.len() } else { 0 };
    assert!(room[count..].iter().all(|&place| place == LENT));
    room.truncate(count);
    (number, room)
}

fn plan_of(lengths: &[u16]) -> (u8, Vec<u16>) {
    planned(&of_lengths(lengths), lengths.len())
}

fn check_of(lengths: &[u16], offsets: &[u16]) -> u8 {
    check_layout(&of_lengths(lengths), offsets)
}

#[test]
fn one_to_960_structures() {
    for (count, number) in [(0, 1), (1, 0), (2, 0), (959, 0), (960, 0), (961, 1), (65537, 1)] {
        let structures = vec![structure(4); count];
        let offsets: Vec<u16> = (0..count).map(|place| (0x100 + 4 * place) as u16).collect();
        assert_eq!(planned(&structures, count).0, number);
        assert_eq!(check_layout(&structures, &offsets), number);
        assert_eq!(write_layout(&structures, &offsets, &mut [0; 4096]), number);
    }
}

#[test]
fn bad_versions_lengths_and_ids() {
    let good = structure(8);
    let with = |id, version, length| Structure { id, version, length };
    for (other, number) in [
        (with(1, 0, 4), 0),
        (with(0xFFFF, 15, 3824), 0),
        (with(0x0100, 15, 3824), 0),
        (with(0, 0, 4), 1),
        (with(1, 16, 4), 1),
        (with(1, 0xFFFF, 4), 1),
        (with(1, 0, 0), 1),
        (with(1, 0, 3), 1),
        (with(1, 0, 3841), 1),
        (with(1, 0, 0xFFFF), 1),
    ] {
        for place in 0..3 {
            let mut structures = [good; 3];
            structures[place] = other;
            let offsets = planned(&structures, 3).1;
            assert_eq!(planned(&structures, 3).0, number, "{other:?}");
            let offsets = if number == 0 {
                offsets
            } else {
                vec![0x100, 0x108, 0x110]
            };
            assert_eq!(check_layout(&structures, &offsets), number, "{other:?}");
            assert_eq!(write_layout(&structures, &offsets, &mut [0; 4096]), number, "{other:?}");
        }
    }
}

#[test]
fn a_room_below_the_count_is_2_and_comes_behind_1_and_before_14() {
    for places in 0..4 {
        assert_eq!(
            planned(&of_lengths(&[4, 4, 4]), places).0,
            if places < 3 { 2 } else { 0 }
        );
        assert_eq!(planned(&of_lengths(&[4, 3, 4]), places).0, 1);
        assert_eq!(
            planned(&of_lengths(&[3840, 4, 4]), places).0,
            if places < 3 { 2 } else { 14 }
        );
    }
    assert_eq!(planned(&of_lengths(&[4, 4, 4]), 70_000).1, [0x100, 0x104, 0x108]);
}

#[test]
fn the_lengths_before_the_last_are_rounded_up() {
    assert_eq!(plan_of(&[5, 6, 7, 8, 9]), (0, vec![0x100, 0x108, 0x110, 0x118, 0x120]));
    assert_eq!(plan_of(&[3840]), (0, vec![0x100]));
    assert_eq!(plan_of(&[3836, 4]), (0, vec![0x100, 0xFFC]));
    assert_eq!(plan_of(&[3833, 4]), (0, vec![0x100, 0xFFC]));
    assert_eq!(plan_of(&[4, 3836]), (0, vec![0x100, 0x104]));
    assert_eq!(plan_of(&[5, 3832]), (0, vec![0x100, 0x108]));
    for lengths in [[3837, 4], [4, 3837], [5, 3833], [3836, 5], [3840, 3840]] {
        assert_eq!(plan_of(&lengths), (14, vec![]), "{lengths:?}");
    }
}

/// "Answer 14 is given exactly if no such proposal exists, which is when the lengths before the last, each rounded up to
/// 4, plus the last as it stands exceed 3,840."
#[test]
fn no_layout_is_where_the_sum_exceeds_3840() {
    for first in (4..=3840_u16).step_by(17).chain(3820..=3840) {
        let left = 3840_u16.saturating_sub(first.next_multiple_of(4));
        let around = [left.saturating_sub(1), left, left + 1, left + 4];
        for last in (4..=3840).step_by(13).chain(around) {
            let sum = first.next_multiple_of(4) + last;
            if (4..=3840).contains(&last) {
                assert_eq!(
                    plan_of(&[first, last]).0,
                    if sum > 3840 { 14 } else { 0 },
                    "{first}, {last}"
                );
            }
        }
    }
}

/// Every word for each of three structures, with and without a byte too many.
#[test]
fn every_proposal_that_lies_below_the_planned_one_is_refused() {
    let lengths = [6, 12, 3];
    let structures = of_lengths(&lengths.map(|length| length + 1));
    let lowest = planned(&structures, 3).1;
    for second in (0..0x140).chain(0xFE0..0x1010) {
        for third in (0..0x140).chain(0xFE0..0x1010) {
            let offsets = [0x100, second, third];
            let fits = second % 4 == 0 && third % 4 == 0 && second >= 0x108 && third >= second + 13 && third <= 0xFFC;
            assert_eq!(
                check_layout(&structures, &offsets),
                if fits { 0 } else { 18 },
                "{offsets:x?}"
            );
            assert!(!fits || lowest.iter().zip(&offsets).all(|(low, offset)| low <= offset));
        }
    }
}

#[test]
fn what_the_checker_refuses() {
    let lengths = [8, 4, 8];
    for (offsets, why) in [
        (&[][..], "none"),
        (&[0x100, 0x108], "one too few"),
        (&[0x100, 0x108, 0x10C, 0x114], "one too many"),
        (&[0x0FC, 0x108, 0x10C], "the first below 100h"),
        (&[0x104, 0x10C, 0x110], "the first above 100h"),
        (&[0x100, 0x109, 0x110], "no multiple of 4"),
        (&[0x100, 0x108, 0x108], "equal"),
        (&[0x100, 0x110, 0x108], "falling"),
        (&[0x100, 0x104, 0x10C], "an overlap"),
        (&[0x100, 0x108, 0xFFC], "an end past 1000h"),
        (&[0x100, 0x108, 0xFFFC], "an end past 2^16"),
    ] {
        assert_eq!(check_of(&lengths, offsets), 18, "{why}");
        let mut space = [0x5A; 4096];
        assert_eq!(write_layout(&of_lengths(&lengths), offsets, &mut space), 18, "{why}");
        assert_eq!(space, [0x5A; 4096], "{why}");
    }
    for offsets in [[0x100, 0x108, 0x10C], [0x100, 0x108, 0xFF8], [0x100, 0xFF4, 0xFF8]] {
        assert_eq!(check_of(&lengths, &offsets), 0);
    }
}

#[test]
fn header_words_only_change_and_the_walker_lists_it_as_given() {
    let structures = [(0x0023, 1, 5), (0xFFFF, 15, 4), (0x0100, 0, 9)].map(|(id, version, length)| Structure {
        id,
        version,
        length,
    });
    let offsets = [0x100, 0x7F8, 0xFF4];
    for filled in [0x00, 0x5A, 0xFF] {
        let mut space = [filled; 4096];
        assert_eq!(write_layout(&structures, &offsets, &mut space), 0);
        let mut expected = [filled; 4096];
        expected[0x100..0x104].copy_from_slice(&[0x23, 0x00, 0x81, 0x7F]);
        expected[0x7F8..0x7FC].copy_from_slice(&[0xFF, 0xFF, 0x4F, 0xFF]);
        expected[0xFF4..0xFF8].copy_from_slice(&[0x00, 0x01, 0x00, 0x00]);
        assert_eq!(space, expected);
        let mut room = [LENT; 960];
        let listed = Walked {
            number: 0,
            count: 3,
            place: 0,
        };
        assert_eq!(walk(List::Extended, &space, &mut room), listed);
        assert_eq!(room[..3], offsets);
    }
}

#[test]
fn another_size_of_the_space_is_1_also_where_it_would_be_18() {
    for length in [0, 4095, 4097, 8192] {
        let mut space = vec![0x5A; length];
        assert_eq!(write_layout(&of_lengths(&[4]), &[0x100], &mut space), 1);
        assert_eq!(write_layout(&of_lengths(&[4]), &[0x104], &mut space), 1);
        assert!(space.iter().all(|&byte| byte == 0x5A));
    }
}

#[test]
fn all_words_from_100h_on() {
    let structures = vec![structure(4); 960];
    let (number, offsets) = planned(&structures, 960);
    assert_eq!(number, 0);
    let mut space = [0xFF; 4096];
    assert_eq!(write_layout(&structures, &offsets, &mut space), 0);
    let mut room = [0; 960];
    assert_eq!(walk(List::Extended, &space, &mut room).count, 960);
    assert_eq!(room[..], offsets);
    for longer in 0..960 {
        let mut structures = structures.clone();
        structures[longer].length = 5;
        assert_eq!(planned(&structures, 960), (14, vec![]));
        assert_eq!(check_layout(&structures, &offsets), 18);
    }
}
