//! Layouts planned: what just fits and what does not, every length, count and room, each fault, and drawn structures.
#![forbid(unsafe_code)]

mod common;

use common::multicast::Drawn;
use common::workshop::{BAD, check_number, drawn_structures, long, packed, plan_number, planned, rounded};
use thawribbon::{EXTENDED_MAXIMUM, Layout, Refusal, Structure};

#[test]
fn structures_of_four_bytes_fill_the_space() {
    let mut structures = [long(4); 960];
    assert_eq!(planned(&structures, 960), 0);
    let mut room = [0; EXTENDED_MAXIMUM];
    let layout = Layout::plan(&structures, &mut room).expect("a layout");
    assert_eq!((layout.offsets()[0], layout.offsets()[959]), (0x100, 0xFFC));
    for place in 0..960 {
        structures[place].length = 5;
        assert_eq!(planned(&structures, 960), 14, "{place}");
        structures[place].length = 4;
    }
}

#[test]
fn one_structure_of_every_length() {
    for length in 0..=u16::MAX {
        let expected = if (4..=3840).contains(&length) { 0 } else { 1 };
        assert_eq!(planned(&[long(length)], 1), expected, "{length}");
    }
}

/// The second stands at the first multiple of 4 behind the first, and may have each length up to the end of the space.
#[test]
fn two_structures_that_just_fit() {
    for first in 4..=3840 {
        let left = u16::try_from(3840 - rounded(first)).expect("a length");
        for less in (0..4).filter(|less| left >= 4 + less) {
            assert_eq!(planned(&[long(first), long(left - less)], 2), 0, "{first}, {less}");
            assert_eq!(packed(&[long(first), long(left)])[1], 0x1000 - left);
        }
        assert_eq!(planned(&[long(first), long(left.max(3) + 1)], 2), 14, "{first}");
    }
}

#[test]
fn lengths_that_take_the_same_words() {
    for (length, second) in [(4, 0x104), (5, 0x108), (6, 0x108), (7, 0x108), (8, 0x108), (9, 0x10C)] {
        let mut room = [0; 2];
        let structures = [long(length); 2];
        let layout = Layout::plan(&structures, &mut room).expect("a layout");
        assert_eq!(layout.offsets(), [0x100, second]);
    }
}

#[test]
fn every_count_of_structures() {
    for count in 0..=964 {
        let expected = if (1..=960).contains(&count) { 0 } else { 1 };
        assert_eq!(planned(&vec![long(4); count], 964), expected, "{count}");
    }
}

#[test]
fn every_length_of_the_room() {
    for count in [1, 2, 17, 960] {
        for length in 0..=964 {
            let expected = if length < count { 2 } else { 0 };
            assert_eq!(planned(&vec![long(4); count], length), expected, "{count}, {length}");
        }
    }
}

#[test]
fn every_id_and_every_version() {
    for number in 0..=u16::MAX {
        for place in 0..3 {
            let mut structures = [long(8); 3];
            structures[place].id = number;
            assert_eq!(planned(&structures, 3), u8::from(number == 0), "{number:04X}");
            structures[place] = Structure {
                version: number,
                ..long(8)
            };
            assert_eq!(planned(&structures, 3), u8::from(number > 15), "{number}");
        }
    }
}

#[test]
fn a_bad_structure_at_every_place() {
    for bad in BAD {
        for place in 0..960 {
            let mut structures = [long(4); 960];
            structures[place] = bad;
            assert_eq!(planned(&structures, 960), 1, "{bad:?} at {place}");
        }
    }
}

/// 1 comes before 2, and 2 before 14.
#[test]
fn the_lowest_number() {
    assert_eq!(planned(&[long(3840), BAD[0]], 1), 1);
    assert_eq!(planned(&[long(3840), BAD[0]], 2), 1);
    assert_eq!(planned(&[long(3840); 2], 1), 2);
    assert_eq!(planned(&[long(3840); 2], 2), 14);
}

#[test]
fn refusals_have_their_names() {
    let mut room = [0; 2];
    let refusal =
        |structures: &[Structure], room: &mut [u16]| Layout::plan(structures, room).expect_err("it is refused");
    assert_eq!(refusal(&[], &mut room), Refusal::BadDescription);
    assert_eq!(refusal(&[long(4); 3], &mut room), Refusal::NoRoom);
    assert_eq!(refusal(&[long(3840); 2], &mut room), Refusal::NoLayout);
    assert_eq!(room, [0; 2]);
}

/// Structures of which many just fit. What is planned is accepted by the words of document 02, too.
#[test]
fn plans_of_drawn_structures() {
    let (mut drawn, mut counted) = (Drawn(10), [0; 2]);
    for _ in 0..3000 {
        let structures = drawn_structures(&mut drawn);
        let expected = plan_number(&structures, 960);
        assert_eq!(planned(&structures, 960), expected, "{structures:?}");
        if expected == 0 {
            assert_eq!(check_number(&structures, &packed(&structures)), 0);
        }
        counted[usize::from(expected == 0)] += 1;
    }
    assert!(counted.iter().all(|&count| count > 200), "{counted:?}");
}
