//! Ways to accept proposals, by request 10/13: right ones, and such as some proposal shows to be wrong. Each is tried at
//! the checker and at the writer.

use second::compare::{Reference, Subject};
use thawribbon::raw::Structure;

use crate::harness::{Wrong, expect_caught, expect_not_caught};
use crate::surveyor::{
    Apart, Clauses, Ends, RIGHT, accepting, are_bad, expect_accepting_caught, expect_clauses_caught, needed,
    offsets_by, up,
};

fn expect_accepting_not_caught(accept: impl Fn(&[Structure], &[u16]) -> bool + Clone + 'static) {
    for subject in accepting(accept) {
        expect_not_caught(subject);
    }
}

/// Whether no two of some spans have a byte in common, all pairs tried.
fn no_two_meet(structures: &[Structure], offsets: &[u16]) -> bool {
    let spans = structures
        .iter()
        .zip(offsets)
        .map(|(one, &at)| (usize::from(at), usize::from(at) + usize::from(one.length)));
    let spans: Vec<(usize, usize)> = spans.collect();
    let meet = |one: (usize, usize), other: (usize, usize)| one.0 < other.1 && other.0 < one.1;
    (0..spans.len()).all(|second| (0..second).all(|first| !meet(spans[first], spans[second])))
}

#[test]
fn the_form_of_these_with_nothing_wrong_is_not_caught() {
    expect_accepting_not_caught(|structures, offsets| RIGHT.accept(structures, offsets));
}

#[test]
fn only_the_last_end_compared_with_1000h_is_not_caught() {
    let clauses = Clauses {
        ends: |[_, end], place, count| place + 1 != count || end <= 0x1000,
        ..RIGHT
    };
    expect_accepting_not_caught(move |structures, offsets| clauses.accept(structures, offsets));
}

#[test]
fn an_order_that_follows_from_the_ends_is_not_caught() {
    let clauses = Clauses {
        rises: |_, _| true,
        ..RIGHT
    };
    expect_accepting_not_caught(move |structures, offsets| clauses.accept(structures, offsets));
}

#[test]
fn all_pairs_and_a_sorted_list_are_not_caught() {
    let clauses = Clauses {
        are_apart: |_, _| true,
        rises: |_, _| true,
        ..RIGHT
    };
    expect_accepting_not_caught(move |structures, offsets| {
        let is_sorted = offsets.is_sorted();
        clauses.accept(structures, offsets) && is_sorted && no_two_meet(structures, offsets)
    });
}

#[test]
fn none_below_the_plan_and_ends_rounded_up_are_not_caught() {
    let clauses = Clauses {
        are_apart: |[start, end], [next, _]| start + up(end - start) <= next,
        ..RIGHT
    };
    expect_accepting_not_caught(move |structures, offsets| {
        let fits = needed(structures) <= 3840;
        let mut pairs = offsets.iter().zip(offsets_by(structures, up));
        fits && pairs.all(|(&offset, low)| offset >= low) && clauses.accept(structures, offsets)
    });
}

#[test]
fn another_number_of_offsets_taken() {
    let tests: [fn(usize, usize) -> bool; 8] = [
        |_, _| true,
        |structures, offsets| structures <= offsets,
        |structures, offsets| structures >= offsets,
        |structures, offsets| structures.abs_diff(offsets) <= 1,
        |structures, offsets| structures as u16 == offsets as u16,
        |structures, offsets| structures == offsets || offsets == 0,
        |structures, offsets| structures + 1 == offsets || structures == offsets,
        |structures, offsets| structures == offsets + 1 || structures == offsets,
    ];
    for is_count in tests {
        expect_clauses_caught(Clauses { is_count, ..RIGHT });
    }
}

#[test]
fn another_first_offset_taken() {
    let tests: [fn(u16) -> bool; 8] = [
        |_| true,
        |first| first >= 0x100,
        |first| first <= 0x100,
        |first| first == 0x100 || first == 0,
        |first| first == 0x100 || first == 0x104,
        |first| first == 0x100 || first == 0x0FC,
        |first| first / 8 == 0x20,
        |first| first.is_multiple_of(0x100),
    ];
    for is_first in tests {
        expect_clauses_caught(Clauses { is_first, ..RIGHT });
    }
}

#[test]
fn offsets_that_are_no_multiples_of_4_taken() {
    let tests: [fn(u16, usize, usize) -> bool; 10] = [
        |_, _, _| true,
        |offset, _, _| offset % 2 == 0,
        |offset, _, _| offset % 4 != 1,
        |offset, _, _| offset % 4 != 2,
        |offset, _, _| offset % 4 != 3,
        |offset, place, count| place + 1 == count || offset % 4 == 0,
        |offset, place, count| place + 1 != count || offset % 4 == 0,
        |offset, place, _| place != 0 || offset % 4 == 0,
        |offset, place, _| place == 1 || offset % 4 == 0,
        |offset, place, _| place >= 512 || offset % 4 == 0,
    ];
    for is_multiple in tests {
        expect_clauses_caught(Clauses { is_multiple, ..RIGHT });
    }
}

#[test]
fn one_place_whose_offset_may_be_any() {
    for left_out in [1, 2, 100, 957, 958] {
        expect_accepting_caught(move |structures, offsets| {
            let mut other = offsets.to_vec();
            if let Some(offset) = other.get_mut(left_out) {
                *offset &= 0xFFFC;
            }
            RIGHT.accept(structures, &other)
        });
    }
}

#[test]
fn other_multiples_wanted() {
    let is_multiple = |offset: u16, _: usize, _: usize| offset % 8 == 0;
    expect_clauses_caught(Clauses { is_multiple, ..RIGHT });
    let is_multiple = |offset: u16, _: usize, _: usize| offset % 4 == 0 && offset < 0xFFC;
    expect_clauses_caught(Clauses { is_multiple, ..RIGHT });
}

/// Structures that overlap just where they begin at the same offset pass, and so may two be equal.
#[test]
fn offsets_that_may_be_equal() {
    expect_clauses_caught(Clauses {
        rises: |offset, next| offset <= next,
        are_apart: |[start, end], [next, _]| start == next || end <= next,
        ..RIGHT
    });
}

#[test]
fn overlaps_looked_for_by_the_start_only() {
    let tests: [Apart; 5] = [
        |_, _| true,
        |[start, _], [next, _]| start < next,
        |[start, _], [next, _]| start + 4 <= next,
        |[start, _], [next, _]| start + 8 <= next,
        |[start, end], [next, its_end]| start != next && end != its_end,
    ];
    for are_apart in tests {
        expect_clauses_caught(Clauses { are_apart, ..RIGHT });
    }
}

#[test]
fn overlaps_of_some_bytes_taken() {
    let tests: [Apart; 9] = [
        |[_, end], [next, _]| end <= next + 1,
        |[_, end], [next, _]| end <= next + 2,
        |[_, end], [next, _]| end <= next + 3,
        |[_, end], [next, _]| end <= next + 4,
        |[start, end], [next, _]| start + (end - start) / 4 * 4 <= next,
        |[_, end], [next, _]| end <= next || end > next + 4 && end < next + 8,
        |[start, end], [next, its_end]| start + (its_end - next) <= next && end <= next + 8,
        |[_, end], [_, its_end]| end < its_end,
        |[_, end], [next, _]| (end % 0x100 <= next % 0x100 || end / 0x100 < next / 0x100) || end <= next,
    ];
    for are_apart in tests {
        expect_clauses_caught(Clauses { are_apart, ..RIGHT });
    }
}

#[test]
fn a_gap_wanted_or_none() {
    let tests: [Apart; 5] = [
        |[_, end], [next, _]| end < next,
        |[_, end], [next, _]| end + 4 <= next,
        |[start, end], [next, _]| start + up(end - start) == next,
        |[_, end], [next, _]| end <= next && next - end < 64,
        |[start, end], [next, _]| start + (end - start) / 4 * 4 + 4 <= next,
    ];
    for are_apart in tests {
        expect_clauses_caught(Clauses { are_apart, ..RIGHT });
    }
}

#[test]
fn only_some_neighbours_compared() {
    for left_out in [0, 1, 2, 100, 957, 958] {
        expect_accepting_caught(move |structures, offsets| {
            let mut shorter = structures.to_vec();
            let way = |place: usize| offsets.get(place + 1)?.checked_sub(*offsets.get(place)?);
            if let (Some(one), Some(way)) = (shorter.get_mut(left_out), way(left_out)) {
                one.length = one.length.min(way);
            }
            RIGHT.accept(&shorter, offsets)
        });
    }
}

/// The order is not looked at, and overlaps only between neighbours in the list.
#[test]
fn neighbours_in_the_list_that_may_fall() {
    let clauses = Clauses {
        rises: |_, _| true,
        are_apart: |[start, end], [next, its_end]| end <= next || its_end <= start,
        ..RIGHT
    };
    expect_clauses_caught(clauses);
    expect_accepting_caught(move |structures, offsets| {
        clauses.accept(structures, offsets) && no_two_meet(structures, offsets)
    });
}

#[test]
fn an_order_that_falls_taken() {
    for left_out in [1, 2, 100, 957, 958] {
        expect_accepting_caught(move |structures, offsets| {
            let (mut structures, mut offsets) = (structures.to_vec(), offsets.to_vec());
            if structures.len() == offsets.len()
                && offsets.len() > left_out + 1
                && offsets[left_out] > offsets[left_out + 1]
            {
                structures.swap(left_out, left_out + 1);
                offsets.swap(left_out, left_out + 1);
            }
            RIGHT.accept(&structures, &offsets)
        });
    }
    expect_accepting_caught(|structures, offsets| {
        let mut pairs: Vec<(u16, Structure)> = offsets.iter().copied().zip(structures.iter().copied()).collect();
        pairs.sort_by_key(|&(offset, _)| offset);
        let (offsets_then, structures_then): (Vec<u16>, Vec<Structure>) = pairs.into_iter().unzip();
        offsets.len() == structures.len() && RIGHT.accept(&structures_then, &offsets_then)
    });
}

#[test]
fn an_end_past_1000h_taken() {
    let tests: [Ends; 11] = [
        |_, _, _| true,
        |[start, _], _, _| start < 0x1000,
        |[start, _], _, _| start <= 0xFFC,
        |[_, end], _, _| end <= 0x1001,
        |[_, end], _, _| end <= 0x1002,
        |[_, end], _, _| end <= 0x1003,
        |[_, end], _, _| end <= 0x1004,
        |[_, end], place, count| place + 1 == count || end <= 0x1000,
        |[_, end], _, _| end as u16 <= 0x1000,
        |[start, end], _, _| start % 0x1000 + (end - start) <= 0x1000,
        |[_, end], place, _| place != 1 || end <= 0x1000,
    ];
    for ends in tests {
        expect_clauses_caught(Clauses { ends, ..RIGHT });
    }
}

#[test]
fn the_last_end_taken_with_one_number_of_structures() {
    for left_out in [2, 3, 959, 960] {
        expect_accepting_caught(move |structures, offsets| {
            let clauses = Clauses {
                ends: if structures.len() == left_out {
                    |_, _, _| true
                } else {
                    RIGHT.ends
                },
                ..RIGHT
            };
            clauses.accept(structures, offsets)
        });
    }
}

#[test]
fn an_earlier_end_wanted() {
    let tests: [Ends; 5] = [
        |[_, end], _, _| end < 0x1000,
        |[_, end], _, _| end < 0xFFF,
        |[_, end], _, _| end <= 0xFFC,
        |[start, _], _, _| start != 0xFFC,
        |[start, end], _, _| start + up(end - start) < 0x1000,
    ];
    for ends in tests {
        expect_clauses_caught(Clauses { ends, ..RIGHT });
    }
}

#[test]
fn only_the_plan_accepted() {
    expect_accepting_caught(|structures, offsets| needed(structures) <= 3840 && offsets == offsets_by(structures, up));
}

#[test]
fn everything_or_nothing_accepted() {
    expect_accepting_caught(|_, _| true);
    expect_accepting_caught(|_, _| false);
    expect_accepting_caught(|structures, _| needed(structures) <= 3840);
}

#[test]
fn one_number_of_structures_not_accepted() {
    for count in [1, 2, 100, 959, 960] {
        expect_accepting_caught(move |structures, offsets| {
            structures.len() != count && RIGHT.accept(structures, offsets)
        });
    }
}

#[test]
fn the_proposal_tested_first() {
    expect_caught(
        Wrong::check(|structures, offsets| match RIGHT.accept(structures, offsets) {
            false => 18,
            true => are_bad(structures).into(),
        }),
        "check_layout",
    );
    expect_caught(
        Wrong::lay(|structures, offsets, space| match RIGHT.accept(structures, offsets) {
            false => 18,
            true => Reference.write_layout(structures, offsets, space),
        }),
        "write_layout",
    );
    expect_caught(
        Wrong::lay(
            |structures, offsets, space| match are_bad(structures) || RIGHT.accept(structures, offsets) {
                false => 18,
                true => Reference.write_layout(structures, offsets, space),
            },
        ),
        "write_layout",
    );
}

#[test]
fn another_number() {
    for (number, other) in [
        (18, 0),
        (18, 1),
        (18, 7),
        (18, 14),
        (18, 19),
        (1, 18),
        (1, 0),
        (0, 18),
        (0, 1),
    ] {
        expect_caught(
            Wrong::check(move |structures, offsets| {
                let right = Reference.check_layout(structures, offsets);
                if right == number { other } else { right }
            }),
            "check_layout",
        );
        expect_caught(
            Wrong::lay(move |structures, offsets, space| {
                let right = Reference.write_layout(structures, offsets, space);
                if right == number { other } else { right }
            }),
            "write_layout",
        );
    }
}
