//! Wrong ways to tell of a group that is hit, or of no hit, by request 8/13.

use thawribbon::raw::Judged;

use crate::caster::{
    Call, DROPPED, LEAVES, NO_HIT, expect_judge_caught, is_from_the_base_on, or_else, told, with_told,
};
use crate::harness::Wrong;

#[test]
fn each_group_taken_for_no_hit() {
    for missed in 0..64 {
        expect_judge_caught(or_else(move |_, judged| {
            (judged.verdict >= DROPPED && judged.group == missed).then_some(NO_HIT)
        }));
    }
}

#[test]
fn each_index_taken_for_no_hit() {
    for missed in 12..64 {
        expect_judge_caught(or_else(move |call, judged| {
            (judged.verdict >= DROPPED && call.entered().index == missed).then_some(NO_HIT)
        }));
    }
}

/// A subject that tells no group, which the harness shows in full.
pub fn with_the_group_lost() -> Wrong {
    with_told(LEAVES, |_, judged| Judged { group: 0, ..judged })
}

#[test]
fn the_group_not_told_where_it_is_dropped() {
    expect_judge_caught(with_told(DROPPED, |_, judged| Judged { group: 0, ..judged }));
}

#[test]
fn another_group_told() {
    for verdict in [DROPPED, LEAVES] {
        let changes: [fn(u8) -> u8; 4] = [
            |group| group + 1,
            |group| 63 - group,
            |group| group & 31,
            |group| group & 15,
        ];
        for change in changes {
            expect_judge_caught(with_told(verdict, move |_, judged| Judged {
                group: change(judged.group),
                ..judged
            }));
        }
    }
}

#[test]
fn a_group_told_with_no_hit() {
    for group in [1, 63, 255] {
        expect_judge_caught(with_told(1, move |_, judged| Judged { group, ..judged }));
    }
    expect_judge_caught(with_told(1, |call, judged| {
        let record = call.entered();
        let number = call.address.wrapping_sub(record.base) >> record.index;
        Judged {
            group: number as u8,
            ..judged
        }
    }));
}

#[test]
fn no_hit_told_as_something_else() {
    for verdict in [0, DROPPED, LEAVES] {
        expect_judge_caught(with_told(1, move |_, judged| Judged { verdict, ..judged }));
    }
    expect_judge_caught(with_told(1, |_, judged| Judged {
        number: 1,
        verdict: 0,
        ..judged
    }));
}

/// No hit in one of the three ways is told as leaving by all ports that receive group 0.
#[test]
fn one_way_to_hit_nothing_told_as_a_hit() {
    let ways: [fn(&Call<'_>) -> bool; 3] = [
        |call| call.entered().enable == 0,
        |call| call.entered().enable == 1 && call.address < call.entered().base,
        |call| is_from_the_base_on(call),
    ];
    for way in ways {
        expect_judge_caught(with_told(
            1,
            move |call, judged| if way(call) { told(call, Some(0)) } else { judged },
        ));
    }
}

#[test]
fn a_hit_told_as_another_verdict() {
    expect_judge_caught(with_told(DROPPED, |_, _| NO_HIT));
    expect_judge_caught(with_told(
        LEAVES,
        |_, judged| if judged.ports == 0 { NO_HIT } else { judged },
    ));
    expect_judge_caught(with_told(DROPPED, |_, judged| Judged {
        verdict: LEAVES,
        ..judged
    }));
    let emptied = |_: &Call<'_>, judged: Judged| match judged.ports {
        0 => Judged {
            verdict: DROPPED,
            ..judged
        },
        _ => judged,
    };
    expect_judge_caught(with_told(LEAVES, emptied));
}

/// Addresses at an edge by themselves.
#[test]
fn one_address_missed() {
    for missed in [0, u64::MAX, !0xFFF, 1 << 63, (1 << 63) - 1] {
        expect_judge_caught(or_else(move |call, judged| {
            (judged.verdict >= DROPPED && call.address == missed).then_some(NO_HIT)
        }));
    }
}
