//! Wrong ways to tell what broke: numbers other than 11 and 12, and the two confused.

use thawribbon::raw::Walked;

use crate::broken::{Broken, expect_each_shape_caught, expect_telling_caught};
use crate::harness::{expect_not_caught, right_walk};
use crate::walker::{ALL, LISTS, STARTED, all_walked_by, refused};

/// The form of which wrong ways to tell are made, with nothing wrong in it.
#[test]
fn every_fault_told_as_it_is_is_not_caught() {
    expect_not_caught(all_walked_by(|place, space, room| match Broken::find(place, space) {
        Some(broken) => broken.right(),
        None => right_walk(LISTS[place].0, space, room),
    }));
}

/// Each of the lists is caught where some faults are told with another number.
fn expect_number_caught(places: &[usize], number: u8, is_told: impl Fn(&Broken) -> bool + Copy + 'static) {
    expect_telling_caught(places, move |broken| {
        let right = broken.right();
        let number = if is_told(broken) { number } else { right.number };
        Walked { number, ..right }
    });
}

/// Document 01 before request 3/13: "If none exists, 7."
#[test]
fn seven_as_it_was_before() {
    expect_telling_caught(ALL, |_| refused(7, 0));
}

#[test]
fn seven_with_a_place() {
    expect_number_caught(ALL, 7, |_| true);
}

#[test]
fn seven_only_below_the_floor() {
    expect_number_caught(ALL, 7, |broken| !broken.is_loop());
}

#[test]
fn seven_only_for_loops() {
    expect_number_caught(ALL, 7, Broken::is_loop);
}

#[test]
fn seven_where_the_start_is_at_fault() {
    expect_number_caught(STARTED, 7, Broken::is_at_the_start);
}

#[test]
fn eleven_and_twelve_confused() {
    expect_telling_caught(ALL, |broken| {
        let right = broken.right();
        refused(23 - right.number, right.place)
    });
}

#[test]
fn eleven_for_every_broken_list() {
    expect_number_caught(ALL, 11, |_| true);
}

#[test]
fn twelve_for_every_broken_list() {
    expect_number_caught(ALL, 12, |_| true);
}

/// Document 01 has 1 where "a function number or offset is outside its range", which is said of what a caller gives.
#[test]
fn one_for_a_start_below_the_floor() {
    expect_number_caught(STARTED, 1, Broken::is_at_the_start);
}

#[test]
fn twelve_for_a_start_below_the_floor() {
    expect_number_caught(STARTED, 12, Broken::is_at_the_start);
}

#[test]
fn eleven_for_a_header_that_points_to_itself() {
    expect_number_caught(ALL, 11, |broken| broken.back == 1);
}

#[test]
fn eleven_for_a_pointer_to_the_start() {
    expect_number_caught(ALL, 11, |broken| broken.is_loop() && broken.back == broken.chain.len());
}

#[test]
fn eleven_for_a_loop_after_a_tail() {
    expect_number_caught(ALL, 11, |broken| broken.is_loop() && broken.back < broken.chain.len());
}

#[test]
fn eleven_for_a_pointer_to_the_floor() {
    expect_number_caught(ALL, 11, |broken| usize::from(broken.to()) == LISTS[broken.place].2);
}

#[test]
fn eleven_for_a_pointer_back_to_a_lower_offset() {
    expect_number_caught(ALL, 11, |broken| broken.to() < broken.right().place);
}

#[test]
fn eleven_for_a_pointer_back_to_a_higher_offset() {
    expect_number_caught(ALL, 11, |broken| broken.is_loop() && broken.to() > broken.right().place);
}

#[test]
fn eleven_for_a_pointer_back_with_bottom_bits() {
    expect_number_caught(ALL, 11, |broken| broken.pointer % 4 != 0);
}

#[test]
fn twelve_for_a_pointer_just_below_the_floor() {
    expect_number_caught(ALL, 12, |broken| usize::from(broken.to()) == LISTS[broken.place].2 - 4);
}

#[test]
fn twelve_for_a_pointer_further_below_the_floor() {
    expect_number_caught(&[0, 1], 12, |broken| {
        usize::from(broken.to()) < LISTS[broken.place].2 - 4
    });
}

#[test]
fn twelve_for_a_pointer_below_the_floor_with_bottom_bits() {
    expect_number_caught(ALL, 12, |broken| broken.pointer % 4 != 0);
}

#[test]
fn one_shape_told_with_the_other_number() {
    expect_each_shape_caught(|broken| refused(23 - broken.number(), broken.right().place));
}
