//! Wrong ways to refuse a list or a place in it, by request 8/13, and to tell of a refusal: "a longer list, no such port, or
//! a record the reading can't give is 1".

use second::compare::{Reference, Subject};
use thawribbon::raw::{Groups, Judged};

use crate::caster::{
    DROPPED, Habits, LEAVES, NO_HIT, REFUSED, RIGHT, expect_judge_caught, group, judged_by, mended, or_else, otherwise,
};
use crate::harness::Wrong;

#[test]
fn another_length_taken() {
    let lengths: [fn(usize) -> bool; 7] = [
        |length| length <= 33,
        |length| length <= 34,
        |length| length <= 64,
        |_| true,
        |length| length % 256 <= 32,
        |length| length <= 32 || length >= 256,
        |length| length != 33,
    ];
    for is_length in lengths {
        expect_judge_caught(judged_by(Habits { is_length, ..RIGHT }));
    }
}

#[test]
fn a_good_length_refused() {
    for length in 1..=32 {
        expect_judge_caught(or_else(move |call, judged| {
            (judged.number == 0 && call.ports.len() == length).then_some(REFUSED)
        }));
    }
    expect_judge_caught(judged_by(Habits {
        is_length: |length| length < 32,
        ..RIGHT
    }));
}

/// A list that is too long is judged by its first 32 ports.
#[test]
fn the_first_32_ports_judged() {
    for longest in [33, 34, 300] {
        expect_judge_caught(or_else(move |call, _| {
            let is_long = (33..=longest).contains(&call.ports.len());
            is_long.then(|| Reference.judge(&call.ports[..32], call.entering, call.address))
        }));
    }
}

#[test]
fn an_empty_list_taken() {
    for verdict in [1, DROPPED, LEAVES] {
        expect_judge_caught(or_else(move |call, _| {
            call.ports.is_empty().then_some(Judged { verdict, ..NO_HIT })
        }));
    }
}

/// A place that is not in the list is taken for another one.
#[test]
fn another_place_entered_by() {
    let places: [fn(usize, usize) -> usize; 9] = [
        |entering, length| if entering == length { length - 1 } else { entering },
        |entering, length| entering.min(length - 1),
        |entering, length| entering % length,
        |entering, _| entering & 0xFF,
        |entering, _| entering & 0xFFFF,
        |entering, _| entering & 0xFFFF_FFFF,
        |entering, _| entering & 0x1F,
        |entering, _| entering.wrapping_sub(1),
        |entering, length| if entering < length { entering } else { 0 },
    ];
    for place in places {
        expect_judge_caught(Wrong::judge(move |ports, entering, address| match ports.len() {
            0 => REFUSED,
            length => Reference.judge(ports, place(entering, length), address),
        }));
    }
}

#[test]
fn no_such_port_taken_for_no_hit() {
    expect_judge_caught(or_else(|call, _| {
        let is_none = call.ports.len() <= 32 && call.entering >= call.ports.len();
        is_none.then_some(NO_HIT)
    }));
    expect_judge_caught(or_else(|call, _| {
        let is_behind = !call.ports.is_empty() && call.entering == call.ports.len();
        is_behind.then_some(NO_HIT)
    }));
}

#[test]
fn each_place_refused() {
    for refused in 0..32 {
        expect_judge_caught(or_else(move |call, judged| {
            (judged.number == 0 && call.entering == refused).then_some(REFUSED)
        }));
    }
}

#[test]
fn another_number_told_for_a_record() {
    for number in [2, 8, 9, 13] {
        expect_judge_caught(or_else(move |_, judged| {
            (judged.number == 1).then_some(Judged { number, ..judged })
        }));
    }
    expect_judge_caught(or_else(|call, judged| {
        let is_13 = |record: &Groups| record.num_group > record.max_group || record.enable == 1 && record.index < 12;
        (judged.number == 1 && call.ports.iter().any(is_13)).then_some(Judged { number: 13, ..judged })
    }));
}

#[test]
fn something_told_with_a_refusal() {
    expect_judge_caught(or_else(|_, judged| {
        (judged.number == 1).then_some(Judged { verdict: 1, ..judged })
    }));
    expect_judge_caught(or_else(|call, judged| {
        (judged.number == 1).then(|| Judged {
            verdict: otherwise(call).verdict,
            ..judged
        })
    }));
    expect_judge_caught(or_else(|call, judged| {
        (judged.number == 1).then(|| Judged {
            ports: otherwise(call).ports,
            ..judged
        })
    }));
    expect_judge_caught(or_else(|call, judged| {
        let record = call.ports.get(call.entering).copied().map(mended);
        let told = record.and_then(|record| group(&record, call.address)).unwrap_or(0);
        (judged.number == 1).then_some(Judged {
            group: told as u8,
            ..judged
        })
    }));
}

/// Nothing is refused: what can be judged is.
#[test]
fn nothing_refused() {
    expect_judge_caught(or_else(|call, judged| {
        (judged.number == 1 && call.ports.len() <= 32).then(|| otherwise(call))
    }));
    expect_judge_caught(or_else(|_, judged| (judged.number == 1).then_some(NO_HIT)));
}

#[test]
fn everything_refused() {
    expect_judge_caught(or_else(|_, _| Some(REFUSED)));
}
