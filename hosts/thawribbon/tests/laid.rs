//! Layouts checked and written: what is accepted and what is not, and what the lists of the space are afterwards.
#![forbid(unsafe_code)]

mod common;

use common::multicast::Drawn;
use common::workshop::{BAD, check_number, checked, drawn_structures, long, packed, plan_number, written};
use common::{SPACE, lengths};
use thawribbon::{Header, Layout, List, Offset, Refusal, Structure, chain, headers};

/// Checked, and written into a space of EEh: the number of both.
fn taken(structures: &[Structure], offsets: &[Offset]) -> u8 {
    let number = checked(structures, offsets);
    assert_eq!(written(structures, offsets, &[0xEE; SPACE]).0, number);
    number
}

const TWO: [Structure; 2] = [long(22), long(8)];

/// The first is 100h, and the second a multiple of 4 from 118h to FF8h.
#[test]
fn every_number_as_an_offset() {
    for number in 0..=u16::MAX {
        let first = if number == 0x100 { 0 } else { 18 };
        assert_eq!(taken(&TWO, &[number, 0xFF8]), first, "{number:X}h");
        let good = number % 4 == 0 && (0x118..=0xFF8).contains(&number);
        assert_eq!(taken(&TWO, &[0x100, number]), if good { 0 } else { 18 }, "{number:X}h");
    }
}

#[test]
fn a_layout_of_every_count() {
    let structures = [long(4); 17];
    let offsets = packed(&[long(4); 964]);
    for count in 0..=offsets.len() {
        assert_eq!(
            taken(&structures, &offsets[..count]),
            if count == 17 { 0 } else { 18 },
            "{count}"
        );
    }
}

/// A little off at any place, or with two offsets swapped or equal, it is none.
#[test]
fn the_one_layout_of_960_structures() {
    let structures = [long(4); 960];
    let offsets = packed(&structures);
    assert_eq!(taken(&structures, &offsets), 0);
    for place in 0..960 {
        for off in [1, 2, 4, u16::MAX, u16::MAX - 3] {
            let mut other = offsets.clone();
            other[place] = other[place].wrapping_add(off);
            assert_eq!(taken(&structures, &other), 18, "{place}");
        }
        let mut other = offsets.clone();
        other.swap(place, (place + 1) % 960);
        assert_eq!(taken(&structures, &other), 18, "{place}");
        other[place] = other[(place + 1) % 960];
        assert_eq!(taken(&structures, &other), 18, "{place}");
    }
}

/// Both begin in order, and the first reaches over the second.
#[test]
fn structures_that_reach_over_each_other() {
    for length in 4..=3840 {
        let offsets = [0x100, 0x500, 0x600];
        let number = |most| if length <= most { 0 } else { 18 };
        assert_eq!(
            taken(&[long(length), long(4), long(4)], &offsets),
            number(0x400),
            "{length}"
        );
        assert_eq!(
            taken(&[long(4), long(length), long(4)], &offsets),
            number(0x100),
            "{length}"
        );
        assert_eq!(
            taken(&[long(4), long(4), long(length)], &offsets),
            number(0xA00),
            "{length}"
        );
    }
}

#[test]
fn bad_structures_come_before_all() {
    for bad in BAD {
        for offsets in [&[0x100, 0x118][..], &[0x100, 0x114], &[0x100], &[]] {
            assert_eq!(taken(&[bad, long(8)], offsets), 1, "{bad:?}");
            assert_eq!(taken(&[long(22), bad], offsets), 1, "{bad:?}");
        }
    }
    assert_eq!(taken(&[], &[]), 1);
    assert_eq!(taken(&[long(4); 961], &[0x100]), 1);
}

#[test]
fn every_length_of_the_space() {
    for length in lengths() {
        let (expected, space) = (u8::from(length != SPACE), vec![0x5C; length]);
        assert_eq!(written(&TWO, &[0x100, 0x118], &space).0, expected, "{length}");
        assert_eq!(
            written(&TWO, &[0x100, 0x114], &space).0,
            if length == SPACE { 18 } else { 1 },
            "{length}"
        );
    }
}

#[test]
fn refusals_have_their_names() {
    assert_eq!(Layout::check(&TWO, &[0x100, 0x114]), Err(Refusal::NotAccepted));
    assert_eq!(Layout::check(&[], &[0x100]), Err(Refusal::BadDescription));
    let layout = Layout::check(&TWO, &[0x100, 0x118]).expect("it is accepted");
    assert_eq!(layout.write(&mut [0; SPACE - 1]), Err(Refusal::BadDescription));
    assert_eq!(layout.write(&mut [0; SPACE]), Ok(()));
    assert_eq!((layout.structures(), layout.offsets()), (&TWO[..], &[0x100, 0x118][..]));
}

/// A space of one value, in which the extended list goes in a circle, and the compatible list has two headers.
fn used_space(value: u8) -> [u8; SPACE] {
    let mut space = [value; SPACE];
    space[0x100..0x104].copy_from_slice(&[0x23, 0x00, 0x01, 0x10]);
    (space[0x06], space[0x34]) = (0x10, 0x40);
    space[0x40..0x42].copy_from_slice(&[0x09, 0x80]);
    space[0x80..0x82].copy_from_slice(&[0x10, 0x00]);
    space
}

/// What the walk lists is what was laid out.
fn is_listed(structures: &[Structure], offsets: &[Offset], space: &[u8]) {
    let expected: Vec<Header> = structures
        .iter()
        .zip(offsets)
        .map(|(structure, &offset)| Header {
            offset,
            id: structure.id,
            version: u8::try_from(structure.version).ok(),
        })
        .collect();
    assert_eq!(headers(List::Extended, space), Ok(expected));
}

/// Whatever the space held; and the compatible list is as it was.
#[test]
fn the_walk_lists_what_was_written() {
    for count in [1, 2, 3, 16, 959, 960] {
        let structures: Vec<Structure> = (0..count)
            .map(|place: u16| Structure {
                id: 1 + place * 67,
                version: place % 16,
                length: 4,
            })
            .collect();
        let offsets = packed(&structures);
        for value in 0..=u8::MAX {
            let before = used_space(value);
            let (number, space) = written(&structures, &offsets, &before);
            assert_eq!(number, 0);
            is_listed(&structures, &offsets, &space);
            assert_eq!(chain(List::Compatible, &space), Ok(vec![0x40, 0x80]));
        }
    }
}

/// In the header of the last, which points to nothing, and of the one before, which points to it.
#[test]
fn every_id_in_a_header() {
    for id in 1..=u16::MAX {
        let offsets = [0x100, 0x118 + id % 952 * 4];
        for place in 0..2 {
            let mut structures = TWO;
            (structures[place].id, structures[place].version) = (id, id % 16);
            let (number, space) = written(&structures, &offsets, &[id.to_le_bytes()[0]; SPACE]);
            assert_eq!(number, 0);
            is_listed(&structures, &offsets, &space);
        }
    }
}

/// Drawn layouts, often with one offset a little off.
#[test]
fn drawn_layouts() {
    let (mut drawn, mut counted) = (Drawn(11), [0; 2]);
    for _ in 0..3000 {
        let structures = drawn_structures(&mut drawn);
        if plan_number(&structures, 960) != 0 {
            continue;
        }
        let mut offsets = packed(&structures);
        let place = usize::try_from(drawn.below(960)).expect("a place") % offsets.len();
        if drawn.below(2) == 0 {
            let off = u16::try_from(drawn.below(32)).expect("16 bits");
            offsets[place] = offsets[place].wrapping_add(off).wrapping_sub(8);
        }
        let expected = check_number(&structures, &offsets);
        assert_eq!(
            checked(&structures, &offsets),
            expected,
            "{structures:?} at {offsets:X?}"
        );
        let (number, space) = written(&structures, &offsets, &[drawn.number().to_le_bytes()[0]; SPACE]);
        assert_eq!(number, expected);
        if expected == 0 {
            is_listed(&structures, &offsets, &space);
        }
        counted[usize::from(expected == 0)] += 1;
    }
    assert!(counted.iter().all(|&count| count > 200), "{counted:?}");
}
