//! Wrong ways to answer that tell or write too much: headers and offsets of a broken list, and a place where none is due.

use std::cell::Cell;

use second::model::List;
use thawribbon::raw::Walked;

use crate::broken::{Broken, expect_telling_caught};
use crate::harness::{Wrong, expect_caught, right_walk};
use crate::walker::{ALL, LISTS, one_walked_by};

#[test]
fn the_headers_counted_in_a_broken_list() {
    expect_telling_caught(ALL, |broken| Walked {
        count: broken.chain.len(),
        ..broken.right()
    });
}

#[test]
fn one_header_counted_in_every_broken_list() {
    expect_telling_caught(ALL, |broken| Walked {
        count: 1,
        ..broken.right()
    });
}

/// Each list is caught which writes into the room where it is broken.
fn expect_writing_caught(write: impl Fn(&Broken, &mut [u16]) + Copy + 'static) {
    for (place, (_, entry, ..)) in LISTS.into_iter().enumerate() {
        let subject = one_walked_by(place, move |list, space, room| {
            if let Some(broken) = Broken::find(place, space) {
                write(&broken, room);
                return broken.right();
            }
            right_walk(list, space, room)
        });
        expect_caught(subject, entry);
    }
}

#[test]
fn a_loop_written_to_the_room() {
    expect_writing_caught(|broken, room| {
        if broken.is_loop() {
            room[..broken.chain.len()].copy_from_slice(&broken.chain);
        }
    });
}

#[test]
fn what_leads_below_the_floor_written_to_the_room() {
    expect_writing_caught(|broken, room| {
        if !broken.is_loop() {
            room[..broken.chain.len()].copy_from_slice(&broken.chain);
        }
    });
}

#[test]
fn the_place_written_to_the_room() {
    expect_writing_caught(|broken, room| room[0] = broken.right().place);
}

#[test]
fn the_room_cleared_where_a_list_is_broken() {
    expect_writing_caught(|_, room| room.fill(0));
}

/// Each list is caught which tells a place with a number that has none.
fn expect_leftover_caught(number: u8, place: impl Fn(List, &[u8], &[u16]) -> u16 + Copy + 'static) {
    for (wrong_list, entry, ..) in LISTS {
        let tells = move |list, space: &[u8], room: &mut [u16]| {
            let walked = right_walk(list, space, room);
            if list != wrong_list || walked.number != number {
                return walked;
            }
            Walked {
                place: place(list, space, &room[..walked.count]),
                ..walked
            }
        };
        expect_caught(Wrong::walk(tells), entry);
    }
}

#[test]
fn the_last_offset_told_of_a_list_that_is_served() {
    expect_leftover_caught(0, |_, _, chain| chain.last().copied().unwrap_or(0));
}

#[test]
fn the_first_offset_told_of_a_list_that_is_served() {
    expect_leftover_caught(0, |_, _, chain| chain.first().copied().unwrap_or(0));
}

/// The broken list of a space, cut or filled up to the right size.
fn broken_whatever_the_size(list: List, space: &[u8]) -> Option<Broken> {
    let mut whole = space.to_vec();
    whole.resize(4096, 0);
    Broken::find(list as usize, &whole)
}

fn place_whatever_the_size(list: List, space: &[u8]) -> u16 {
    broken_whatever_the_size(list, space).map_or(0, |broken| broken.right().place)
}

#[test]
fn a_place_told_where_the_space_has_another_size() {
    expect_leftover_caught(1, |list, space, _| place_whatever_the_size(list, space));
}

#[test]
fn a_place_told_where_the_room_is_too_small() {
    expect_leftover_caught(2, |list, space, _| place_whatever_the_size(list, space));
}

/// The compatible list's pointers are followed although it is called empty. That it is empty is told, and the place too.
#[test]
fn a_place_told_of_a_list_that_is_called_empty() {
    let tells = |list, space: &[u8], room: &mut [u16]| {
        let walked = right_walk(list, space, room);
        if list != List::Compatible || walked.number != 0 {
            return walked;
        }
        let mut present = space.to_vec();
        present[0x06] |= 0x10;
        let place = place_whatever_the_size(list, &present);
        Walked { place, ..walked }
    };
    expect_caught(Wrong::walk(tells), "walk_compatible");
}

/// The place of the last broken list is told again with every answer that has none.
#[test]
fn a_place_kept_from_an_earlier_walk() {
    for (wrong_list, entry, ..) in LISTS {
        let kept = Cell::new(0);
        let keeps = move |list, space: &[u8], room: &mut [u16]| {
            let walked = right_walk(list, space, room);
            if list != wrong_list {
                return walked;
            }
            if walked.number > 2 {
                kept.set(walked.place);
            }
            Walked {
                place: kept.get(),
                ..walked
            }
        };
        expect_caught(Wrong::walk(keeps), entry);
    }
}

/// Each list is caught which tells what broke where a size is refused with a number.
fn expect_order_caught(number: u8) {
    for (wrong_list, entry, ..) in LISTS {
        let tells = move |list, space: &[u8], room: &mut [u16]| {
            let walked = right_walk(list, space, room);
            if list != wrong_list || walked.number != number {
                return walked;
            }
            broken_whatever_the_size(list, space).map_or(walked, |broken| broken.right())
        };
        expect_caught(Wrong::walk(tells), entry);
    }
}

#[test]
fn what_broke_told_before_the_spaces_size() {
    expect_order_caught(1);
}

#[test]
fn what_broke_told_before_the_rooms_size() {
    expect_order_caught(2);
}
