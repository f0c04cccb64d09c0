//! Ways to find the first pointer back by walkers, by a count or by a search: right ones, and such as find another.

use crate::broken::{Broken, expect_place_caught, first, step};
use crate::harness::{expect_caught, expect_not_caught, right_walk};
use crate::walker::{
    ALL, Habits, LISTS, Memory, all_walked_by, expect_each_caught, first_back, holder, next, one_walked_by, refused,
};

/// A walker that waits, and a loop of so many headers in which it stands.
struct Waiting {
    at: usize,
    length: usize,
}

impl Waiting {
    /// One walker waits, another runs on, and the one that waits is moved up after 1, 2, 4, 8 .. steps (Brent). None
    /// where there is no loop.
    fn find(place: usize, space: &[u8]) -> Option<Self> {
        let (list, _, floor, _) = LISTS[place];
        let mut waiting = first(list, space);
        let (mut at, mut length, mut patience) = (waiting, 0, 1);
        while at >= floor {
            at = step(place, space, at);
            length += 1;
            if at == waiting {
                return Some(Self { at, length });
            }
            if length == patience {
                (waiting, length, patience) = (at, 0, 2 * patience);
            }
        }
        None
    }
}

/// A walker that is ahead of another by the loop's length comes with it to the loop's first header, and the header that
/// it comes from is told.
#[test]
fn a_walker_that_waits_is_not_caught() {
    expect_not_caught(all_walked_by(|place, space, room| {
        let list = LISTS[place].0;
        let Some(Waiting { length, .. }) = Waiting::find(place, space) else {
            return right_walk(list, space, room);
        };
        let (mut behind, mut ahead, mut before) = (first(list, space), first(list, space), 0);
        for _ in 0..length {
            (before, ahead) = (ahead, step(place, space, ahead));
        }
        while behind != ahead {
            behind = step(place, space, behind);
            (before, ahead) = (ahead, step(place, space, ahead));
        }
        refused(12, before as u16)
    }));
}

/// Each list is caught whose loops are told by where a walker waits.
fn expect_waiting_caught(tell: impl Fn(usize, &[u8], Waiting) -> usize + Copy + 'static) {
    for (place, (_, entry, ..)) in LISTS.into_iter().enumerate() {
        let subject = one_walked_by(place, move |list, space, room| match Waiting::find(place, space) {
            Some(waiting) => refused(12, tell(place, space, waiting) as u16),
            None => right_walk(list, space, room),
        });
        expect_caught(subject, entry);
    }
}

#[test]
fn where_a_walker_waits() {
    expect_waiting_caught(|_, _, waiting| waiting.at);
}

#[test]
fn before_a_runner_comes_to_a_walker_that_waits() {
    expect_waiting_caught(|place, space, waiting| (1..waiting.length).fold(waiting.at, |at, _| step(place, space, at)));
}

/// Each list is caught whose loops are told at another place, and which is right below the floor.
fn expect_loop_place_caught(place: impl Fn(&Broken) -> u16 + Copy + 'static) {
    expect_place_caught(ALL, move |broken| {
        if broken.is_loop() {
            place(broken)
        } else {
            holder(&broken.chain)
        }
    });
}

#[test]
fn where_a_tortoise_and_a_hare_meet() {
    expect_loop_place_caught(|broken| broken.after(broken.meeting()));
}

#[test]
fn before_a_tortoise_and_a_hare_meet() {
    expect_loop_place_caught(|broken| broken.after(broken.meeting() - 1));
}

/// A loop that does not come back to the start is told where a tortoise and a hare meet in it.
#[test]
fn loops_tested_against_the_start_and_else_by_a_hare() {
    expect_loop_place_caught(|broken| {
        if broken.back == broken.chain.len() {
            holder(&broken.chain)
        } else {
            broken.after(broken.meeting())
        }
    });
}

/// A loop that leads neither to its last header nor to the one before is told at the start.
#[test]
fn loops_tested_against_the_offset_before_and_else_told_at_the_start() {
    expect_loop_place_caught(|broken| {
        if broken.back < 3 {
            holder(&broken.chain)
        } else {
            broken.chain[0]
        }
    });
}

/// As many offsets as there may be are kept, and the first that comes again is looked for from the last one on.
#[test]
fn offsets_searched_from_the_last_one_on() {
    expect_loop_place_caught(|broken| {
        let most = LISTS[broken.place].3;
        let offsets: Vec<u16> = (0..=most).rev().map(|steps| broken.after(steps)).collect();
        first_back(&offsets).unwrap_or(0)
    });
}

/// The structure that the maximum is reached with, in place of the first that leads back.
#[test]
fn where_a_count_ran_out() {
    expect_each_caught(ALL, |habits| Habits {
        looks_back: false,
        ..habits
    });
}

#[test]
fn where_a_count_of_all_words_ran_out() {
    for most in [1024, 1025, 2048, 4096] {
        expect_each_caught(ALL, |habits| Habits {
            most,
            looks_back: false,
            ..habits
        });
    }
}

/// Loops that are not noticed by the first or the last few offsets are told where a count runs out.
#[test]
fn few_offsets_remembered_and_a_count() {
    for few in [1, 2, 16, 40] {
        for memory in [Memory::First(few), Memory::Last(few)] {
            expect_each_caught(ALL, |habits| Habits {
                memory,
                looks_back: false,
                ..habits
            });
        }
    }
}

/// A loop through all words is noticed when its second header comes again, and told at the first.
#[test]
fn all_offsets_remembered_but_the_first_one_and_a_count() {
    expect_each_caught(ALL, |habits| Habits {
        memory: Memory::Last(habits.most - 1),
        most: habits.most + 1,
        looks_back: false,
        ..habits
    });
}

/// Sees that each list is caught which looks through all headers from the floor on, met or not, for a pointer that is a
/// fault by itself, and tells of the lowest that holds one. It does so for some lists, and is right for the others.
fn expect_search_caught(number: u8, is_searched: impl Fn(&Option<Broken>) -> bool + Copy + 'static) {
    for (place, (_, entry, floor, maximum)) in LISTS.into_iter().enumerate() {
        let subject = one_walked_by(place, move |list, space, room| {
            let is_at_fault = |at: &usize| match next(list, space, *at) & 0xFFC {
                0 => false,
                to if number == 11 => to < floor,
                to => to == *at,
            };
            let found = (0..maximum).map(|word| floor + 4 * word).find(is_at_fault);
            match found {
                Some(at) if is_searched(&Broken::find(place, space)) => refused(number, at as u16),
                _ => right_walk(list, space, room),
            }
        });
        expect_caught(subject, entry);
    }
}

#[test]
fn a_pointer_below_the_floor_searched_for_in_sound_lists() {
    expect_search_caught(11, Option::is_none);
}

#[test]
fn a_pointer_below_the_floor_searched_for_in_loops() {
    expect_search_caught(11, |broken| broken.as_ref().is_some_and(Broken::is_loop));
}

#[test]
fn a_lower_structure_with_a_pointer_below_the_floor() {
    expect_search_caught(11, |broken| broken.as_ref().is_some_and(|broken| !broken.is_loop()));
}

#[test]
fn a_header_that_points_to_itself_searched_for_in_sound_lists() {
    expect_search_caught(12, Option::is_none);
}

#[test]
fn a_header_that_points_to_itself_searched_for_in_lists_that_lead_below_the_floor() {
    expect_search_caught(12, |broken| broken.as_ref().is_some_and(|broken| !broken.is_loop()));
}

#[test]
fn a_lower_structure_that_points_to_itself() {
    expect_search_caught(12, |broken| broken.as_ref().is_some_and(Broken::is_loop));
}
