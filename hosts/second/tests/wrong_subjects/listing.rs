//! Ways to hold structures to be good or bad, by request 10/13: right ones, and such as some list shows to be wrong. Each
//! is tried at the planner, at the checker and at the writer.

use thawribbon::raw::Structure;

use crate::harness::expect_not_caught;
use crate::surveyor::{are_bad, expect_vetting_caught, is_bad, vetting};

/// Another test of how many there are.
fn expect_counts_caught(is_count: fn(usize) -> bool) {
    expect_vetting_caught(move |structures| !is_count(structures.len()) || structures.iter().any(is_bad));
}

/// Another test of each structure, by its place and how many there are.
fn expect_tests_caught(is_bad: impl Fn(&Structure, usize, usize) -> bool + Clone + 'static) {
    expect_vetting_caught(move |structures| {
        let count = structures.len();
        let mut places = structures.iter().enumerate();
        !(1..=960).contains(&count) || places.any(|(place, structure)| is_bad(structure, place, count))
    });
}

const fn bad_version(structure: &Structure) -> bool {
    structure.version > 15
}

const fn bad_length(structure: &Structure) -> bool {
    structure.length < 4 || structure.length > 3840
}

#[test]
fn the_form_of_these_with_nothing_wrong_is_not_caught() {
    for (subject, _) in vetting(are_bad) {
        expect_not_caught(subject);
    }
}

#[test]
fn tests_by_masks_and_by_subtraction_are_not_caught() {
    for (subject, _) in vetting(|structures| {
        let bad = |one: &Structure| one.id == 0 || one.version & 0xFFF0 != 0 || one.length.wrapping_sub(4) > 3836;
        structures.len().wrapping_sub(1) > 959 || structures.iter().any(bad)
    }) {
        expect_not_caught(subject);
    }
}

#[test]
fn nothing_tested() {
    expect_vetting_caught(|_| false);
}

#[test]
fn only_the_count_or_only_the_structures_tested() {
    expect_vetting_caught(|structures| !(1..=960).contains(&structures.len()));
    expect_vetting_caught(|structures| structures.iter().any(is_bad));
}

#[test]
fn no_structure_taken() {
    expect_counts_caught(|count| count <= 960);
}

#[test]
fn more_than_960_taken() {
    expect_counts_caught(|count| (1..=961).contains(&count));
    expect_counts_caught(|count| (1..=1024).contains(&count));
    expect_counts_caught(|count| count >= 1);
}

#[test]
fn one_or_960_refused() {
    expect_counts_caught(|count| (2..=960).contains(&count));
    expect_counts_caught(|count| (1..960).contains(&count));
    expect_counts_caught(|count| (1..959).contains(&count));
    expect_counts_caught(|count| (1..256).contains(&count));
}

#[test]
fn the_count_taken_by_its_low_bits() {
    expect_counts_caught(|count| (1..=960).contains(&(count % 1024)));
    expect_counts_caught(|count| (1..=960).contains(&(count as u16)));
}

#[test]
fn an_id_of_0_taken() {
    expect_tests_caught(|one, _, _| bad_version(one) || bad_length(one));
    expect_tests_caught(|one, place, _| one.id == 0 && place == 0 || bad_version(one) || bad_length(one));
    expect_tests_caught(|one, place, _| one.id == 0 && place != 0 || bad_version(one) || bad_length(one));
    expect_tests_caught(|one, place, count| one.id == 0 && place + 1 != count || bad_version(one) || bad_length(one));
    expect_tests_caught(|one, _, count| one.id == 0 && count > 1 || bad_version(one) || bad_length(one));
    expect_tests_caught(|one, _, _| one.id == 0 && one.version == 0 || bad_version(one) || bad_length(one));
}

#[test]
fn an_id_tested_by_one_byte() {
    expect_tests_caught(|one, _, _| one.id % 256 == 0 || bad_version(one) || bad_length(one));
    expect_tests_caught(|one, _, _| one.id / 256 == 0 || bad_version(one) || bad_length(one));
}

#[test]
fn another_id_refused() {
    expect_tests_caught(|one, _, _| one.id == 0xFFFF || is_bad(one));
    expect_tests_caught(|one, _, _| one.id >= 0x8000 || is_bad(one));
    expect_tests_caught(|one, _, _| one.id == 1 || is_bad(one));
}

#[test]
fn a_version_over_15_taken() {
    expect_tests_caught(|one, _, _| one.id == 0 || bad_length(one));
    expect_tests_caught(|one, _, _| one.id == 0 || one.version > 16 || bad_length(one));
    expect_tests_caught(|one, _, _| one.id == 0 || one.version > 31 || bad_length(one));
    expect_tests_caught(|one, _, _| one.id == 0 || one.version as u8 > 15 || bad_length(one));
    expect_tests_caught(|one, _, _| one.id == 0 || one.version as i16 > 15 || bad_length(one));
    expect_tests_caught(|one, _, _| one.id == 0 || bad_version(one) && one.version != 0xFFFF || bad_length(one));
}

#[test]
fn a_bit_of_the_version_not_tested() {
    for bit in 4..16 {
        expect_tests_caught(move |one, _, _| one.id == 0 || one.version & 0xFFF0 & !(1 << bit) != 0 || bad_length(one));
    }
}

#[test]
fn a_good_version_refused() {
    for version in [0, 1, 14, 15] {
        expect_tests_caught(move |one, _, _| one.version == version || is_bad(one));
    }
}

#[test]
fn a_length_under_4_taken() {
    for least in 0..4 {
        expect_tests_caught(move |one, _, _| one.id == 0 || bad_version(one) || !(least..=3840).contains(&one.length));
    }
    expect_tests_caught(|one, _, _| is_bad(one) && one.length != 0);
}

#[test]
fn a_length_over_3840_taken() {
    for most in [3841, 3842, 3843, 3844, 4095, 4096, 0x7FFF, 0xFFFF] {
        expect_tests_caught(move |one, _, _| one.id == 0 || bad_version(one) || !(4..=most).contains(&one.length));
    }
    expect_tests_caught(|one, _, _| one.id == 0 || bad_version(one) || !(4..=3840).contains(&(one.length % 4096)));
    expect_tests_caught(|one, _, _| one.id == 0 || bad_version(one) || one.length < 4 || one.length as i16 > 3840);
}

#[test]
fn a_good_length_refused() {
    for (least, most) in [(5, 3840), (8, 3840), (4, 3839), (4, 3836)] {
        expect_tests_caught(move |one, _, _| one.id == 0 || bad_version(one) || !(least..=most).contains(&one.length));
    }
    expect_tests_caught(|one, _, _| is_bad(one) || one.length % 4 != 0);
}

#[test]
fn one_place_not_tested() {
    for left_out in [0, 1, 2, 100, 957, 958, 959] {
        expect_tests_caught(move |one, place, _| place != left_out && is_bad(one));
    }
    expect_tests_caught(|one, place, count| place + 1 != count && is_bad(one));
}

#[test]
fn only_some_places_tested() {
    expect_tests_caught(|one, place, _| place == 0 && is_bad(one));
    expect_tests_caught(|one, place, count| (place == 0 || place + 1 == count) && is_bad(one));
    expect_tests_caught(|one, place, _| place % 2 == 0 && is_bad(one));
    expect_tests_caught(|one, place, _| place < 256 && is_bad(one));
}

#[test]
fn two_faults_that_make_up_for_one_another() {
    expect_tests_caught(|one, _, _| (one.id == 0) != (bad_version(one) || bad_length(one)));
    expect_vetting_caught(|structures| {
        let bad = structures.iter().filter(|one| is_bad(one)).count();
        !(1..=960).contains(&structures.len()) || bad % 2 == 1
    });
}
