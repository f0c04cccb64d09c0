//! Marks by which the first pointer back is found: right ones, and such as some loop or some chain shows to be wrong.

use std::cell::RefCell;

use second::model::List;
use thawribbon::raw::Walked;

use crate::broken::{first, step};
use crate::harness::{expect_caught, expect_not_caught};
use crate::walker::{ALL, LISTS, all_walked_by, holder, listed, next, one_walked_by, refused, start};

/// Walks a list. An offset is marked as it is met, and whether it was marked before is told. Where marks let a walk go
/// on for ever, a count ends it, and the last pointer is told.
fn walk_by(mut was_marked: impl FnMut(usize) -> bool, list: List, space: &[u8], room: &mut [u16]) -> Walked {
    let (_, _, floor, maximum) = LISTS[list as usize];
    let (mut at, mut chain) = (first(list, space), Vec::new());
    while at != 0 {
        if at < floor {
            return refused(11, holder(&chain));
        }
        if was_marked(at) || chain.len() == maximum {
            return refused(12, holder(&chain));
        }
        chain.push(at as u16);
        at = next(list, space, at) & 0xFFC;
    }
    listed(&chain, room)
}

/// So many marks. A function tells which of them an offset has, if it has one.
fn marks(number: usize, mark: impl Fn(usize) -> Option<usize>) -> impl FnMut(usize) -> bool {
    let mut set = vec![false; number];
    move |at| mark(at).is_some_and(|mark| std::mem::replace(&mut set[mark], true))
}

/// The mark of each word.
const fn of_its_own(at: usize) -> Option<usize> {
    Some(at / 4)
}

#[test]
fn a_mark_for_each_word_is_not_caught() {
    expect_not_caught(all_walked_by(|place, space, room| {
        walk_by(marks(1024, of_its_own), LISTS[place].0, space, room)
    }));
}

#[test]
fn a_mark_for_each_byte_is_not_caught() {
    expect_not_caught(all_walked_by(|place, space, room| {
        walk_by(marks(4096, Some), LISTS[place].0, space, room)
    }));
}

#[test]
fn a_mark_for_each_word_from_the_floor_on_is_not_caught() {
    expect_not_caught(all_walked_by(|place, space, room| {
        let (list, _, floor, maximum) = LISTS[place];
        let from_the_floor = marks(maximum, |at| Some((at - floor) / 4));
        walk_by(from_the_floor, list, space, room)
    }));
}

#[test]
fn a_bit_for_each_word_is_not_caught() {
    expect_not_caught(all_walked_by(|place, space, room| {
        let mut bits = [0_u64; 16];
        let was_set = move |at: usize| {
            let (word, bit) = (at / 256, 1 << (at / 4 % 64));
            let before = bits[word];
            bits[word] |= bit;
            before & bit != 0
        };
        walk_by(was_set, LISTS[place].0, space, room)
    }));
}

/// The first pass counts, and only a list without an end is walked again, by marks.
#[test]
fn two_passes_are_not_caught() {
    expect_not_caught(all_walked_by(|place, space, room| {
        let (list, _, floor, maximum) = LISTS[place];
        let (mut at, mut chain) = (first(list, space), Vec::new());
        while at >= floor && chain.len() <= maximum {
            chain.push(at as u16);
            at = step(place, space, at);
        }
        if at == 0 {
            return listed(&chain, room);
        }
        walk_by(marks(1024, of_its_own), list, space, room)
    }));
}

/// Each of the lists is caught where an offset has another mark, or none.
fn expect_marks_caught(places: &[usize], number: usize, mark: impl Fn(usize, usize) -> Option<usize> + Copy + 'static) {
    for &place in places {
        let subject = one_walked_by(place, move |list, space, room| {
            walk_by(marks(number, |at| mark(place, at)), list, space, room)
        });
        expect_caught(subject, LISTS[place].1);
    }
}

/// 1,024 marks by the offset of a byte: the offsets from 400h on have none, or those of others.
#[test]
fn marks_by_the_byte() {
    expect_marks_caught(&[1, 2], 1024, |_, at| (at < 1024).then_some(at));
    expect_marks_caught(&[1, 2], 1024, |_, at| Some(at % 1024));
}

#[test]
fn no_marks_for_the_highest_words() {
    for number in [64, 256, 512, 1023] {
        expect_marks_caught(&[1, 2], number, move |_, at| Some(at / 4).filter(|&mark| mark < number));
    }
    for number in [16, 32, 63] {
        expect_marks_caught(&[0], number, move |_, at| Some(at / 4).filter(|&mark| mark < number));
    }
}

#[test]
fn marks_that_begin_again_for_the_highest_words() {
    for number in [64, 256, 512] {
        expect_marks_caught(&[1, 2], number, move |_, at| Some(at / 4 % number));
    }
    for number in [16, 32] {
        expect_marks_caught(&[0], number, move |_, at| Some(at / 4 % number));
    }
}

#[test]
fn one_mark_for_two_words() {
    expect_marks_caught(ALL, 512, |_, at| Some(at / 8));
}

#[test]
fn no_mark_for_the_lowest_word() {
    expect_marks_caught(ALL, 1024, |place, at| (at != LISTS[place].2).then_some(at / 4));
}

#[test]
fn no_mark_for_the_highest_word() {
    expect_marks_caught(ALL, 1024, |place, at| {
        let (.., floor, maximum) = LISTS[place];
        (at != floor + 4 * (maximum - 1)).then_some(at / 4)
    });
}

/// A loop through the start is noticed at its second header.
#[test]
fn no_mark_for_the_start() {
    for (place, (_, entry, ..)) in LISTS.into_iter().enumerate() {
        let subject = one_walked_by(place, move |list, space, room| {
            let start = first(list, space);
            let but_the_start = marks(1024, |at| (at != start).then_some(at / 4));
            walk_by(but_the_start, list, space, room)
        });
        expect_caught(subject, entry);
    }
}

#[test]
fn marks_kept_from_an_earlier_walk() {
    for (place, (_, entry, ..)) in LISTS.into_iter().enumerate() {
        let kept = RefCell::new(marks(1024, of_its_own));
        let subject = one_walked_by(place, move |list, space, room| {
            walk_by(|at| kept.borrow_mut()(at), list, space, room)
        });
        expect_caught(subject, entry);
    }
}

/// A pointer back that has other bottom bits than the one before it finds no mark.
#[test]
fn marks_by_the_pointer_as_it_stands() {
    for (place, (_, entry, floor, maximum)) in LISTS.into_iter().enumerate() {
        let subject = one_walked_by(place, move |list, space, room| {
            let (pointer, empty) = start(list, space);
            let mut pointer = if empty { 0 } else { pointer };
            let (mut was_marked, mut chain) = (marks(4096, Some), Vec::new());
            while pointer & 0xFFC >= floor && !was_marked(pointer) && chain.len() < maximum {
                chain.push(pointer as u16 & 0xFFC);
                pointer = next(list, space, pointer & 0xFFC);
            }
            match pointer & 0xFFC {
                0 => listed(&chain, room),
                at if at < floor => refused(11, holder(&chain)),
                _ => refused(12, holder(&chain)),
            }
        });
        expect_caught(subject, entry);
    }
}
