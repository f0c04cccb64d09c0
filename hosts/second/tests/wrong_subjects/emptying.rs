//! Wrong ways to tell that a list is empty: by a part of the word at 100h, by more than that word, or in a list of
//! which nothing of that kind is said.

use crate::broken::Broken;
use crate::harness::{Wrong, expect_caught, expect_not_caught, right_walk, word};
use crate::walker::{EXTENDED, LISTS, is_null, is_zero, listed, one_walked_by, start};

/// A list that is empty where something holds of its space, and walked rightly otherwise.
fn empty_where(place: usize, holds: impl Fn(&[u8]) -> bool + 'static) -> Wrong {
    one_walked_by(place, move |list, space, room| {
        if holds(space) {
            return listed(&[], room);
        }
        right_walk(list, space, room)
    })
}

/// Sees that an extended list is caught which is empty where these bits of the word at 100h are 0.
fn expect_bits_caught(bits: u32) {
    let subject = empty_where(EXTENDED, move |space| word(space, 0x100) & bits == 0);
    expect_caught(subject, "walk_extended");
}

#[test]
fn the_id_the_version_and_the_pointer_tested_one_by_one_are_not_caught() {
    expect_not_caught(empty_where(EXTENDED, |space| {
        let first = word(space, 0x100);
        let (id, version, pointer) = (first & 0xFFFF, first >> 16 & 0xF, first >> 20);
        id == 0 && version == 0 && pointer == 0
    }));
}

/// Document 01 before request 2/13: "empty if the ID there is 0000h".
#[test]
fn empty_where_the_id_at_100h_is_0() {
    expect_bits_caught(0x0000_FFFF);
}

#[test]
fn empty_where_the_id_and_the_version_at_100h_are_0() {
    expect_bits_caught(0x000F_FFFF);
}

#[test]
fn empty_where_the_id_and_the_pointer_at_100h_are_0() {
    expect_bits_caught(0xFFF0_FFFF);
}

#[test]
fn empty_where_the_version_and_the_pointer_at_100h_are_0() {
    expect_bits_caught(0xFFFF_0000);
}

/// The pointer's bottom two bits are dropped before the word is tested, and the version is tested or not.
#[test]
fn empty_where_the_id_at_100h_is_0_and_the_pointer_leads_to_0() {
    expect_bits_caught(0xFFCF_FFFF);
    expect_bits_caught(0xFFC0_FFFF);
}

#[test]
fn one_bit_of_the_word_at_100h_not_tested() {
    for bit in 0..32 {
        expect_bits_caught(!(1 << bit));
    }
}

/// Of the words with ID 0000h whose pointer leads to 0, one that is not zero is taken for it.
#[test]
fn another_word_at_100h_taken_for_the_zero_word() {
    for fields in 1..64 {
        let subject = empty_where(EXTENDED, move |space| [0, fields << 16].contains(&word(space, 0x100)));
        expect_caught(subject, "walk_extended");
    }
}

#[test]
fn the_word_at_100h_tested_by_one_of_its_bytes() {
    for byte in 0..4 {
        expect_bits_caught(0xFF << (8 * byte));
    }
}

/// Sees that an extended list is caught which has one offset where the word at 100h is zero and the next is not.
fn expect_offset_caught(offset: u16) {
    let subject = one_walked_by(EXTENDED, move |list, space, room| {
        if word(space, 0x100) == 0 && word(space, 0x104) != 0 {
            return listed(&[offset], room);
        }
        right_walk(list, space, room)
    });
    expect_caught(subject, "walk_extended");
}

#[test]
fn the_word_at_104h_tested_too() {
    expect_offset_caught(0x100);
}

/// The list begins at 104h where the word at 100h is zero.
#[test]
fn a_zero_word_at_100h_passed_over() {
    expect_offset_caught(0x104);
}

#[test]
fn empty_where_a_null_capability_at_100h_has_a_broken_chain() {
    let subject = empty_where(EXTENDED, |space| {
        is_null(EXTENDED, space, 0x100) && Broken::find(EXTENDED, space).is_some()
    });
    expect_caught(subject, "walk_extended");
}

/// What is said of the extended list's first header held of another list's.
#[test]
fn another_list_empty_where_its_first_header_is_null_or_zero() {
    for place in [0, 2] {
        for is_taken in [is_null, is_zero] {
            let subject = empty_where(place, move |space| {
                let (pointer, empty) = start(LISTS[place].0, space);
                let at = pointer & 0xFFC;
                !empty && at >= LISTS[place].2 && is_taken(place, space, at as u16)
            });
            expect_caught(subject, LISTS[place].1);
        }
    }
}
