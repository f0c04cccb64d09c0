//! Wrong ways to walk the three lists: floors, pointers, counts and rooms.

use thawribbon::raw::Walked;

use crate::harness::{Wrong, expect_caught, right_walk};
use crate::walker::{Habits, LISTS, Verdict, expect_each_caught};

#[test]
fn a_count_other_than_the_chains_length() {
    for (wrong_list, entry, ..) in LISTS {
        let miscounts = move |list, space: &[u8], room: &mut [u16]| {
            let walked = right_walk(list, space, room);
            let more = usize::from(list == wrong_list && walked.number == 0);
            Walked {
                count: walked.count + more,
                ..walked
            }
        };
        expect_caught(Wrong::walk(miscounts), entry);
    }
}

#[test]
fn a_floor_too_low_by_four() {
    expect_each_caught(&[0, 1, 2], |habits| Habits {
        floor: habits.floor - 4,
        ..habits
    });
}

#[test]
fn a_floor_too_high_by_four() {
    expect_each_caught(&[0, 1, 2], |habits| Habits {
        floor: habits.floor + 4,
        ..habits
    });
}

#[test]
fn a_start_below_the_floor_taken() {
    expect_each_caught(&[0, 2], |habits| Habits {
        tests_start: false,
        ..habits
    });
}

#[test]
fn a_pointer_below_the_floor_taken_for_an_end() {
    expect_each_caught(&[0, 1, 2], |habits| Habits {
        below: Verdict::End,
        ..habits
    });
}

#[test]
fn bottom_bits_of_pointers_kept() {
    expect_each_caught(&[0, 1, 2], |habits| Habits {
        drops_bits: false,
        ..habits
    });
}

#[test]
fn the_mark_of_an_empty_list_not_looked_at() {
    expect_each_caught(&[0, 1], |habits| Habits {
        looks_for_empty: false,
        ..habits
    });
}

#[test]
fn a_broken_chain_written_to_the_room() {
    expect_each_caught(&[0, 1, 2], |habits| Habits {
        writes_at_once: true,
        ..habits
    });
}

#[test]
fn room_past_the_count_cleared() {
    for (wrong_list, entry, ..) in LISTS {
        let clears = move |list, space: &[u8], room: &mut [u16]| {
            let walked = right_walk(list, space, room);
            if list == wrong_list && walked.number == 0 {
                room[walked.count..].fill(0);
            }
            walked
        };
        expect_caught(Wrong::walk(clears), entry);
    }
}

#[test]
fn a_room_too_small_by_one_taken() {
    for (wrong_list, entry, _, maximum) in LISTS {
        let takes = move |list, space: &[u8], room: &mut [u16]| {
            if list != wrong_list || room.len() != maximum - 1 {
                return right_walk(list, space, room);
            }
            let mut larger = vec![0; maximum];
            let walked = right_walk(list, space, &mut larger);
            let written = walked.count.min(maximum - 1);
            room[..written].copy_from_slice(&larger[..written]);
            walked
        };
        expect_caught(Wrong::walk(takes), entry);
    }
}

#[test]
fn a_longer_space_taken() {
    for (wrong_list, entry, ..) in LISTS {
        let takes = move |list, space: &[u8], room: &mut [u16]| {
            let space = if list == wrong_list && space.len() > 4096 {
                &space[..4096]
            } else {
                space
            };
            right_walk(list, space, room)
        };
        expect_caught(Wrong::walk(takes), entry);
    }
}
