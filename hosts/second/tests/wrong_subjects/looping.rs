//! Ways to tell a loop from a chain that is merely long: right ones, and such as some loop or some long chain shows to
//! be wrong.

use std::collections::HashSet;

use thawribbon::raw::Walked;

use crate::broken::{Broken, Shape, first, step};
use crate::harness::{expect_caught, expect_not_caught, right_walk};
use crate::walker::{
    ALL, Habits, LISTS, Memory, Verdict, all_walked_by, expect_each_caught, expect_none_caught, holder, listed, next,
    one_walked_by, refused,
};

/// The offsets from a start on, up to an end or to the maximum.
fn offsets_from(place: usize, space: &[u8], start: usize) -> Vec<u16> {
    let following = |&at: &usize| Some(step(place, space, at));
    let offsets = std::iter::successors(Some(start), following).take_while(|&at| at != 0);
    offsets.take(LISTS[place].3).map(|at| at as u16).collect()
}

#[test]
fn a_bound_on_the_count_is_not_caught() {
    expect_none_caught(|habits| habits);
}

#[test]
fn a_bound_above_the_maximum_is_not_caught() {
    expect_none_caught(|habits| Habits {
        most: habits.most + 1000,
        ..habits
    });
}

#[test]
fn all_offsets_remembered_are_not_caught() {
    expect_none_caught(|habits| Habits {
        memory: Memory::First(usize::MAX),
        most: usize::MAX,
        ..habits
    });
}

/// Where a tortoise and a hare meet, which makes two steps where it makes one: in a loop, at an end, or below the floor
/// (Floyd).
fn meeting(place: usize, space: &[u8]) -> usize {
    let start = first(LISTS[place].0, space);
    let (mut tortoise, mut hare) = (start, start);
    loop {
        tortoise = step(place, space, tortoise);
        hare = step(place, space, step(place, space, hare));
        if tortoise == hare {
            return tortoise;
        }
    }
}

/// The header from one on whose pointer leads to an offset.
fn leading_to(place: usize, space: &[u8], from: usize, to: usize) -> u16 {
    let mut at = from;
    while step(place, space, at) != to {
        at = step(place, space, at);
    }
    at as u16
}

/// From the start and from where they met, two more walkers come to the loop's first header at once. The header that
/// leads to it from inside is told.
#[test]
fn a_tortoise_and_a_hare_are_not_caught() {
    expect_not_caught(all_walked_by(|place, space, room| {
        let (list, _, floor, _) = LISTS[place];
        let (start, met) = (first(list, space), meeting(place, space));
        if met == 0 {
            return listed(&offsets_from(place, space, start), room);
        }
        if met < floor {
            let holder = if start == met {
                0
            } else {
                leading_to(place, space, start, met)
            };
            return refused(11, holder);
        }
        let (mut behind, mut ahead) = (start, met);
        while behind != ahead {
            (behind, ahead) = (step(place, space, behind), step(place, space, ahead));
        }
        refused(12, leading_to(place, space, behind, behind))
    }));
}

/// The hare's first step of two is not looked at, so it leaps over what lies below the floor, and over an end.
#[test]
fn a_hare_that_looks_at_every_other_offset() {
    for (place, (_, entry, floor, _)) in LISTS.into_iter().enumerate() {
        let subject = one_walked_by(place, move |list, space, room| {
            let leap = |at| next(list, space, next(list, space, at) & 0xFFC) & 0xFFC;
            let start = first(list, space);
            let (mut tortoise, mut hare) = (start, start);
            for _ in 0..2 * room.len() {
                if hare < floor {
                    break;
                }
                tortoise = step(place, space, tortoise);
                hare = leap(hare);
                if tortoise == hare {
                    break;
                }
            }
            if hare != 0 {
                return Broken::find(place, space).map_or(refused(12, start as u16), |broken| broken.right());
            }
            listed(&offsets_from(place, space, start), room)
        });
        expect_caught(subject, entry);
    }
}

#[test]
fn a_maximum_too_small_by_one() {
    expect_each_caught(ALL, |habits| Habits {
        most: habits.most - 1,
        ..habits
    });
}

#[test]
fn the_maximum_taken_for_an_end() {
    expect_each_caught(ALL, |habits| Habits {
        longer: Verdict::End,
        ..habits
    });
}

/// Document 01's trap: "100h to 140h to 180h to 140h never comes back to 100h".
#[test]
fn loops_tested_only_against_the_start() {
    expect_each_caught(ALL, |habits| Habits {
        memory: Memory::First(1),
        longer: Verdict::End,
        ..habits
    });
}

#[test]
fn loops_tested_only_against_the_offset_before() {
    expect_each_caught(ALL, |habits| Habits {
        memory: Memory::Last(1),
        longer: Verdict::End,
        ..habits
    });
}

#[test]
fn only_the_first_offsets_remembered() {
    for few in [2, 16, 40] {
        expect_each_caught(ALL, |habits| Habits {
            memory: Memory::First(few),
            longer: Verdict::End,
            ..habits
        });
    }
}

#[test]
fn only_the_last_offsets_remembered() {
    for few in [2, 16, 40] {
        expect_each_caught(ALL, |habits| Habits {
            memory: Memory::Last(few),
            longer: Verdict::End,
            ..habits
        });
    }
}

#[test]
fn all_offsets_remembered_but_the_last_one() {
    expect_each_caught(ALL, |habits| Habits {
        memory: Memory::First(habits.most - 1),
        longer: Verdict::End,
        ..habits
    });
}

#[test]
fn all_offsets_remembered_but_the_first_one() {
    expect_each_caught(ALL, |habits| Habits {
        memory: Memory::Last(habits.most - 1),
        longer: Verdict::End,
        ..habits
    });
}

#[test]
fn a_loop_listed_once() {
    expect_each_caught(ALL, |habits| Habits {
        memory: Memory::First(usize::MAX),
        again: Verdict::End,
        ..habits
    });
}

#[test]
fn a_header_that_points_to_itself_taken_for_the_last() {
    expect_each_caught(ALL, |habits| Habits {
        memory: Memory::Last(1),
        again: Verdict::End,
        ..habits
    });
}

#[test]
fn a_pointer_to_the_start_taken_for_an_end() {
    expect_each_caught(ALL, |habits| Habits {
        memory: Memory::First(1),
        again: Verdict::End,
        ..habits
    });
}

/// Sees that a walk is caught which refuses a legal chain where some pointer is held to be one back, and is right
/// otherwise.
fn refusing(place: usize, is_back: impl Fn(&[u16]) -> bool + 'static) {
    let subject = one_walked_by(place, move |list, space, room| {
        let before = room.to_vec();
        let walked = right_walk(list, space, room);
        if walked.number == 0 && is_back(&room[..walked.count]) {
            let last = holder(&room[..walked.count]);
            room.copy_from_slice(&before);
            return refused(12, last);
        }
        walked
    });
    expect_caught(subject, LISTS[place].1);
}

#[test]
fn a_pointer_to_a_lower_offset_taken_for_one_back() {
    for place in 0..3 {
        refusing(place, |chain| !chain.is_sorted());
    }
}

/// Whether two offsets of a chain have the same mark.
fn collides(chain: &[u16], mark: impl Fn(u16) -> u16) -> bool {
    let mut marks = HashSet::new();
    !chain.iter().all(|&at| marks.insert(mark(at)))
}

#[test]
fn two_words_with_one_mark() {
    for place in 0..3 {
        refusing(place, |chain| collides(chain, |at| at / 8));
    }
    for place in 1..3 {
        refusing(place, |chain| collides(chain, |at| at % 0x100));
        refusing(place, |chain| collides(chain, |at| at % 0x800));
    }
}

/// Sees that a walk is caught which lists a broken chain of one sort, and is right otherwise.
fn listing(place: usize, is_taken: impl Fn(Shape) -> bool + 'static) {
    let subject = one_walked_by(place, move |list, space, room| -> Walked {
        match Broken::find(place, space) {
            Some(broken) if is_taken(broken.shape()) => listed(&broken.chain, room),
            _ => right_walk(list, space, room),
        }
    });
    expect_caught(subject, LISTS[place].1);
}

/// Each way to be broken at the maximum's last header, and at the one before, is told from the chain that ends there.
#[test]
fn one_shape_of_the_longest_walks_taken_for_a_chain() {
    for (place, (.., maximum)) in LISTS.into_iter().enumerate() {
        for long in [maximum - 1, maximum] {
            for back in [0, 1, 2, long] {
                listing(place, move |shape| shape == (long, back));
            }
            listing(place, move |(headers, back)| headers == long && back > 2 && back < long);
        }
    }
}

/// So is each way of a walk that meets one header, two or three.
#[test]
fn one_shape_of_the_shortest_walks_taken_for_a_chain() {
    for place in 0..3 {
        for headers in 1..=3 {
            for back in 0..=headers {
                listing(place, move |shape| shape == (headers, back));
            }
        }
    }
}
