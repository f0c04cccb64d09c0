//! Ways to plan a layout, by request 10/13: right ones, and such as some structures show to be wrong.

use second::compare::{Reference, Subject};
use thawribbon::raw::Structure;

use crate::harness::{Wrong, expect_caught, expect_not_caught};
use crate::surveyor::{are_bad, needed, offsets_by, plan, up};

/// Plans by another test of whether there is a layout.
fn refusing(has_none: impl Fn(&[Structure]) -> bool + 'static) -> Wrong {
    Wrong::plan(move |structures, room| match are_bad(structures) {
        true => 1,
        false if room.len() < structures.len() => 2,
        false if has_none(structures) => 14,
        false => {
            room[..structures.len()].copy_from_slice(&offsets_by(structures, up));
            0
        }
    })
}

fn expect_refusing_caught(has_none: impl Fn(&[Structure]) -> bool + 'static) {
    expect_plan_caught(refusing(has_none));
}

/// Plans of other offsets, where there is a layout.
fn proposing(offsets: impl Fn(&[Structure]) -> Vec<u16> + 'static) -> Wrong {
    Wrong::plan(move |structures, room| {
        let number = Reference.plan_layout(structures, room);
        if number == 0 {
            room[..structures.len()].copy_from_slice(&offsets(structures));
        }
        number
    })
}

fn expect_proposing_caught(offsets: impl Fn(&[Structure]) -> Vec<u16> + 'static) {
    expect_plan_caught(proposing(offsets));
}

fn expect_plan_caught(subject: Wrong) {
    expect_caught(subject, "plan_layout");
}

/// The model's plan, after which something is done to the room, by the number and by how many structures there are.
fn expect_caught_after(change: fn(&mut [u16], u8, &[Structure])) {
    expect_plan_caught(Wrong::plan(move |structures, room| {
        let number = Reference.plan_layout(structures, room);
        change(room, number, structures);
        number
    }));
}

/// Does not round.
pub fn without_rounding() -> Wrong {
    proposing(|structures| offsets_by(structures, |length| length))
}

/// Each as high as it can stand, and the first at 100h.
fn highest(structures: &[Structure]) -> Vec<u16> {
    let mut end = 0x1000;
    let mut offsets: Vec<u16> = structures
        .iter()
        .rev()
        .map(|one| {
            end = (end - one.length) / 4 * 4;
            end
        })
        .collect();
    offsets.reverse();
    offsets[0] = 0x100;
    offsets
}

#[test]
fn the_form_of_these_with_nothing_wrong_is_not_caught() {
    expect_not_caught(refusing(|structures| needed(structures) > 3840));
    expect_not_caught(proposing(|structures| offsets_by(structures, up)));
}

/// 3,840 is a multiple of 4, so that it makes no difference.
#[test]
fn the_last_rounded_up_too_is_not_caught() {
    expect_not_caught(refusing(|structures| {
        structures.iter().map(|one| up(one.length.into())).sum::<usize>() > 3840
    }));
}

#[test]
fn words_counted_are_not_caught() {
    expect_not_caught(refusing(|structures| {
        let words = structures.iter().map(|one| u32::from(one.length).div_ceil(4));
        words.sum::<u32>() > 960
    }));
}

#[test]
fn a_plan_that_gives_up_where_an_end_passes_1000h_is_not_caught() {
    expect_not_caught(Wrong::plan(|structures, room| {
        if are_bad(structures) {
            return 1;
        }
        let Some(room) = room.get_mut(..structures.len()) else {
            return 2;
        };
        let mut end = 0x100;
        let mut offsets = Vec::new();
        for structure in structures {
            offsets.push(end as u16);
            if end + usize::from(structure.length) > 0x1000 {
                return 14;
            }
            end += up(structure.length.into());
        }
        room.copy_from_slice(&offsets);
        0
    }));
}

#[test]
fn another_rounding() {
    expect_plan_caught(without_rounding());
    let steps: [fn(usize) -> usize; 7] = [
        |length| length / 4 * 4,
        |length| length / 4 * 4 + 4,
        |length| length.next_multiple_of(2),
        |length| length.next_multiple_of(8),
        |length| (length + 2) / 4 * 4,
        |length| (length + 1) / 4 * 4,
        |length| up(length) + 4,
    ];
    for step in steps {
        expect_proposing_caught(move |structures| offsets_by(structures, step));
    }
}

#[test]
fn one_remainder_or_one_place_not_rounded() {
    for rest in 1..4 {
        let step = move |length: usize| if length % 4 == rest { length - rest } else { up(length) };
        expect_proposing_caught(move |structures| offsets_by(structures, step));
    }
    expect_proposing_caught(|structures| {
        let down = usize::from(structures[0].length % 4 != 0) as u16 * 4;
        let mut offsets = offsets_by(structures, up);
        offsets[1..].iter_mut().for_each(|offset| *offset -= down);
        offsets
    });
}

#[test]
fn no_layout_a_byte_too_early_or_too_late() {
    for most in [
        0, 3000, 3832, 3836, 3837, 3838, 3839, 3841, 3842, 3843, 3844, 4095, 4096,
    ] {
        expect_refusing_caught(move |structures| needed(structures) > most);
    }
}

/// The sum of the lengths, each rounded by what is told of its place and of how many there are.
fn sum_by(structures: &[Structure], rounded: fn(usize, usize, usize) -> usize) -> usize {
    let places = structures.iter().enumerate();
    places
        .map(|(place, one)| rounded(one.length.into(), place, structures.len()))
        .sum()
}

/// One length that is not rounded makes no difference, since all others are multiples of 4.
#[test]
fn only_the_first_left_as_it_stands_is_not_caught() {
    expect_not_caught(refusing(|structures| {
        sum_by(
            structures,
            |length, place, _| if place == 0 { length } else { up(length) },
        ) > 3840
    }));
}

#[test]
fn another_sum() {
    let sums: [fn(usize, usize, usize) -> usize; 7] = [
        |length, _, _| length,
        |length, _, _| length / 4 * 4,
        |length, place, count| if place + 1 == count { length } else { length / 4 * 4 },
        |length, place, _| if place < 2 { length } else { up(length) },
        |length, place, count| if place + 2 >= count { length } else { up(length) },
        |length, place, count| if place + 1 == count { 0 } else { up(length) },
        |length, place, count| if place + 1 == count { 4 } else { up(length) },
    ];
    for rounded in sums {
        expect_refusing_caught(move |structures| sum_by(structures, rounded) > 3840);
    }
    expect_refusing_caught(|structures| up(sum_by(structures, |length, _, _| length)) > 3840);
}

#[test]
fn a_sum_in_fewer_bits() {
    expect_refusing_caught(|structures| needed(structures) as u16 > 3840);
    expect_refusing_caught(|structures| needed(structures) as i16 > 3840);
    expect_refusing_caught(|structures| needed(structures) % 4096 > 3840);
    expect_refusing_caught(|structures| (0x100 + needed(structures)) as u16 > 0x1000);
    expect_refusing_caught(|structures| (0x100 + needed(structures)) % 0x2000 > 0x1000);
}

#[test]
fn never_or_always_no_layout() {
    expect_refusing_caught(|_| false);
    expect_refusing_caught(|_| true);
    expect_refusing_caught(|structures| structures.len() == 960);
    expect_refusing_caught(|structures| needed(structures) > 3840 || structures.len() == 960);
    expect_refusing_caught(|structures| needed(structures) > 3840 && structures.len() != 960);
    expect_refusing_caught(|structures| needed(structures) > 3840 && structures.len() != 2);
    expect_refusing_caught(|structures| needed(structures) > 3840 || structures[0].length == 3840);
}

#[test]
fn one_number_of_structures_not_planned() {
    for count in [1, 2, 3, 100, 500, 959, 960] {
        expect_refusing_caught(move |structures| needed(structures) > 3840 || structures.len() == count);
    }
}

#[test]
fn other_offsets_that_the_checker_would_accept() {
    expect_proposing_caught(highest);
    expect_proposing_caught(|structures| {
        let mut offsets = offsets_by(structures, up);
        let (last, end) = (structures.len() - 1, structures[structures.len() - 1].length);
        if last > 0 {
            offsets[last] = (0x1000 - end) / 4 * 4;
        }
        offsets
    });
    expect_proposing_caught(|structures| {
        let spare = (3840 - needed(structures)) / 4 * 4;
        let mut offsets = offsets_by(structures, up);
        offsets[1..]
            .iter_mut()
            .for_each(|offset| *offset += spare.min(4) as u16);
        offsets
    });
}

#[test]
fn offsets_that_the_checker_would_not_accept() {
    let changes: [fn(&mut Vec<u16>); 8] = [
        |offsets| offsets[0] = 0x104,
        |offsets| offsets[0] = 0x0FC,
        |offsets| offsets.iter_mut().for_each(|offset| *offset -= 0x100),
        |offsets| offsets.iter_mut().for_each(|offset| *offset /= 4),
        |offsets| offsets.iter_mut().for_each(|offset| *offset <<= 4),
        |offsets| offsets.reverse(),
        |offsets| offsets.iter_mut().for_each(|offset| *offset %= 0x800),
        |offsets| offsets.iter_mut().for_each(|offset| *offset = offset.swap_bytes()),
    ];
    for change in changes {
        expect_proposing_caught(move |structures| {
            let mut offsets = offsets_by(structures, up);
            change(&mut offsets);
            offsets
        });
    }
}

#[test]
fn structures_put_in_another_order() {
    expect_proposing_caught(|structures| {
        let mut sorted: Vec<usize> = (0..structures.len()).collect();
        sorted.sort_by_key(|&place| std::cmp::Reverse(structures[place].length));
        let mut offsets = vec![0; structures.len()];
        let mut next = 0x100;
        for place in sorted {
            offsets[place] = next as u16;
            next += up(structures[place].length.into());
        }
        offsets
    });
}

#[test]
fn one_offset_not_written() {
    expect_caught_after(|room, number, structures| {
        if number == 0 {
            room[structures.len() - 1] = 1;
        }
    });
    expect_caught_after(|room, number, structures| {
        if number == 0 && structures.len() == 960 {
            room[959] = 1;
        }
    });
    expect_caught_after(|room, number, _| {
        if number == 0 {
            room[0] = 1;
        }
    });
}

#[test]
fn the_rest_of_the_room_written() {
    expect_caught_after(|room, number, structures| {
        if number == 0 {
            room[structures.len()..].fill(0);
        }
    });
    expect_caught_after(|room, number, structures| {
        if let (0, Some(behind)) = (number, room.get_mut(structures.len())) {
            *behind = 0;
        }
    });
    expect_caught_after(|room, number, structures| {
        let rest = room.get_mut(structures.len()..);
        if let (0, Some(last)) = (number, rest.and_then(<[u16]>::last_mut)) {
            *last = 0;
        }
    });
    expect_caught_after(|room, number, structures| {
        if let (0, Some(behind)) = (number, room.get_mut(structures.len())) {
            *behind = (0x100 + needed(structures).next_multiple_of(4)) as u16;
        }
    });
}

#[test]
fn a_refused_plan_that_writes_the_room() {
    expect_caught_after(|room, number, _| {
        if number != 0 {
            room.fill(0);
        }
    });
    for refusal in [1, 2, 14] {
        expect_plan_caught(Wrong::plan(move |structures, room| {
            let number = Reference.plan_layout(structures, room);
            if number == refusal {
                room.iter_mut()
                    .zip(offsets_by(structures, up))
                    .for_each(|(place, offset)| *place = offset);
            }
            number
        }));
        expect_plan_caught(Wrong::plan(move |structures, room| {
            let number = Reference.plan_layout(structures, room);
            if let (true, Some(first)) = (number == refusal, room.first_mut()) {
                *first = 0x100;
            }
            number
        }));
    }
}

/// Writes as far as there is a layout, and then gives up.
#[test]
fn offsets_written_before_there_is_none() {
    expect_plan_caught(Wrong::plan(|structures, room| {
        let number = Reference.plan_layout(structures, room);
        if number == 14 {
            let fitting = offsets_by(structures, up).into_iter().zip(structures);
            let fitting = fitting.take_while(|(offset, one)| usize::from(*offset) + usize::from(one.length) <= 0x1000);
            room.iter_mut()
                .zip(fitting)
                .for_each(|(place, (offset, _))| *place = offset);
        }
        number
    }));
}

#[test]
fn another_room_wanted() {
    let tests: [fn(usize, usize) -> bool; 8] = [
        |room, count| room > count,
        |room, count| room == count,
        |room, _| room >= 960,
        |room, count| room >= count + 2,
        |room, count| room as u16 as usize >= count,
        |room, count| room as u8 as usize >= count,
        |room, count| room >= count.next_multiple_of(4),
        |room, count| room >= count && room < 0x1_0000,
    ];
    for is_enough in tests {
        expect_plan_caught(Wrong::plan(move |structures, room| match are_bad(structures) {
            true => 1,
            false if !is_enough(room.len(), structures.len()) => 2,
            false => plan(structures, room),
        }));
    }
}

/// Writes as many offsets as there is room for, or one fewer than there are structures.
#[test]
fn too_small_a_room_taken() {
    for missing in [1, 960] {
        expect_plan_caught(Wrong::plan(move |structures, room| {
            let number = Reference.plan_layout(structures, room);
            if number != 2 || room.len() + missing < structures.len() {
                return number;
            }
            if needed(structures) > 3840 {
                return 14;
            }
            room.iter_mut()
                .zip(offsets_by(structures, up))
                .for_each(|(place, offset)| *place = offset);
            0
        }));
    }
}

#[test]
fn the_tests_in_another_order() {
    for order in [[2, 1, 14], [1, 14, 2], [14, 1, 2], [2, 14, 1], [14, 2, 1]] {
        expect_plan_caught(Wrong::plan(move |structures, room| {
            let applies = |number: &u8| match number {
                1 => are_bad(structures),
                2 => room.len() < structures.len(),
                _ => needed(structures) > 3840,
            };
            let refusal = order.into_iter().find(applies);
            refusal.unwrap_or_else(|| plan(structures, room))
        }));
    }
}

#[test]
fn another_number() {
    for (number, other) in [
        (1, 2),
        (1, 9),
        (1, 18),
        (2, 1),
        (14, 0),
        (14, 1),
        (14, 2),
        (14, 7),
        (14, 13),
        (14, 18),
        (0, 14),
    ] {
        expect_plan_caught(Wrong::plan(move |structures, room| {
            let right = Reference.plan_layout(structures, room);
            if right == number { other } else { right }
        }));
    }
}
