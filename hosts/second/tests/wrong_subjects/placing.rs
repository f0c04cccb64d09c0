//! Wrong ways to tell where a list broke.

use crate::broken::{Broken, expect_each_shape_caught, expect_place_caught, told_by};
use crate::harness::{Wrong, expect_caught, right_walk};
use crate::walker::{ALL, EXTENDED, LISTS, STARTED, holder, is_null, one_walked_by};

/// An extended list that never tells where it broke.
pub fn without_a_place() -> Wrong {
    told_by(EXTENDED, |broken| broken.told_at(0))
}

#[test]
fn no_place_told() {
    expect_place_caught(ALL, |_| 0);
}

#[test]
fn no_place_told_with_11() {
    expect_place_caught(ALL, |broken| if broken.is_loop() { holder(&broken.chain) } else { 0 });
}

#[test]
fn no_place_told_with_12() {
    expect_place_caught(ALL, |broken| if broken.is_loop() { 0 } else { holder(&broken.chain) });
}

#[test]
fn the_offset_that_the_pointer_leads_to() {
    expect_place_caught(ALL, Broken::to);
}

#[test]
fn the_offset_below_the_floor_that_a_pointer_leads_to() {
    expect_place_caught(ALL, |broken| {
        if broken.is_loop() {
            holder(&broken.chain)
        } else {
            broken.to()
        }
    });
}

#[test]
fn the_pointer_as_it_stands() {
    expect_place_caught(ALL, |broken| broken.pointer as u16);
}

#[test]
fn the_start_of_the_list() {
    expect_place_caught(ALL, |broken| broken.chain.first().copied().unwrap_or(0));
}

/// Each list that has a start pointer is caught where a fault of it is told at another place.
fn expect_start_caught(place: impl Fn(&Broken) -> u16 + Copy + 'static) {
    expect_place_caught(STARTED, move |broken| {
        if broken.is_at_the_start() {
            place(broken)
        } else {
            holder(&broken.chain)
        }
    });
}

/// Byte 34h, or the word at 004h.
#[test]
fn a_start_at_fault_told_where_it_stands() {
    expect_start_caught(|broken| [0x034, 0x100, 0x004][broken.place]);
}

#[test]
fn a_start_at_fault_told_by_where_it_leads() {
    expect_start_caught(Broken::to);
}

#[test]
fn a_start_at_fault_told_by_its_own_value() {
    expect_start_caught(|broken| broken.pointer as u16);
}

#[test]
fn a_start_at_fault_told_by_the_floor() {
    expect_start_caught(|broken| LISTS[broken.place].2 as u16);
}

#[test]
fn a_start_at_fault_told_by_what_no_offset_is() {
    expect_start_caught(|_| 0xFFFF);
}

#[test]
fn one_structure_too_early() {
    expect_place_caught(ALL, |broken| match broken.chain[..] {
        [.., before, _] => before,
        _ => 0,
    });
}

/// The structure after the one that closes a loop is the one that it leads to.
#[test]
fn one_structure_too_late() {
    expect_place_caught(ALL, |broken| {
        if broken.is_loop() {
            broken.after(broken.chain.len())
        } else {
            holder(&broken.chain)
        }
    });
}

/// Where a tail leads into a loop, the last header of the tail points there too.
#[test]
fn the_last_of_the_tail() {
    expect_place_caught(ALL, |broken| {
        let tail = &broken.chain[..broken.chain.len() - broken.back];
        if tail.is_empty() || !broken.is_loop() {
            holder(&broken.chain)
        } else {
            holder(tail)
        }
    });
}

#[test]
fn the_lowest_structure_of_a_loop() {
    expect_place_caught(ALL, |broken| {
        broken.round().iter().copied().min().unwrap_or(holder(&broken.chain))
    });
}

#[test]
fn the_highest_structure_of_a_loop() {
    expect_place_caught(ALL, |broken| {
        broken.round().iter().copied().max().unwrap_or(holder(&broken.chain))
    });
}

#[test]
fn the_highest_structure_that_was_met() {
    expect_place_caught(ALL, |broken| broken.chain.iter().copied().max().unwrap_or(0));
}

#[test]
fn the_place_with_the_pointers_bottom_bits() {
    expect_place_caught(ALL, |broken| holder(&broken.chain) | broken.pointer as u16 & 3);
}

/// A header has its ID first. The pointer stands at +1 in the compatible list, and from +2 on in the others.
#[test]
fn the_place_of_the_pointer_itself() {
    for byte in 1..4 {
        expect_place_caught(ALL, move |broken| match holder(&broken.chain) {
            0 => 0,
            at => at + byte,
        });
    }
}

#[test]
fn the_structures_number_in_the_list() {
    expect_place_caught(ALL, |broken| broken.chain.len() as u16);
    expect_place_caught(ALL, |broken| broken.chain.len().saturating_sub(1) as u16);
}

#[test]
fn the_number_of_the_structures_word() {
    expect_place_caught(ALL, |broken| holder(&broken.chain) / 4);
}

#[test]
fn the_place_counted_from_the_floor() {
    expect_place_caught(ALL, |broken| {
        holder(&broken.chain).saturating_sub(LISTS[broken.place].2 as u16)
    });
}

#[test]
fn the_place_in_eight_or_ten_bits() {
    expect_place_caught(&[1, 2], |broken| holder(&broken.chain) & 0xFF);
    expect_place_caught(&[1, 2], |broken| holder(&broken.chain) & 0x3FF);
}

#[test]
fn the_bytes_of_the_place_in_another_order() {
    expect_place_caught(ALL, |broken| holder(&broken.chain).swap_bytes());
}

/// The compatible list's places are told as if its bytes were the extended list's.
#[test]
fn the_compatible_lists_places_told_from_100h_on() {
    expect_place_caught(&[0], |broken| holder(&broken.chain) | 0x100);
}

#[test]
fn the_last_structure_with_an_id() {
    for (place, (_, entry, ..)) in LISTS.into_iter().enumerate() {
        let subject = one_walked_by(place, move |list, space, room| match Broken::find(place, space) {
            Some(broken) => {
                let with_id = broken.chain.iter().rev().find(|&&at| !is_null(place, space, at));
                broken.told_at(with_id.copied().unwrap_or(0))
            }
            None => right_walk(list, space, room),
        });
        expect_caught(subject, entry);
    }
}

/// Each of the lists alone is caught where one end of its offsets is told as the other.
#[test]
fn the_highest_place_told_as_the_lowest() {
    for (place, (_, entry, floor, maximum)) in LISTS.into_iter().enumerate() {
        let highest = (floor + 4 * (maximum - 1)) as u16;
        for is_loop in [false, true] {
            let subject = told_by(place, move |broken| match broken.right().place {
                at if at == highest && broken.is_loop() == is_loop => broken.told_at(floor as u16),
                at => broken.told_at(at),
            });
            expect_caught(subject, entry);
        }
    }
}

#[test]
fn one_shape_told_at_the_structure_before() {
    expect_each_shape_caught(|broken| match broken.chain[..] {
        [.., before, _] => broken.told_at(before),
        _ => broken.told_at(0),
    });
}

#[test]
fn one_shape_told_without_a_place() {
    expect_each_shape_caught(|broken| broken.told_at(0));
}
