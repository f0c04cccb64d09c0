//! Ways to tell a record that the reading can't give, by request 8/13: right ones and wrong ones.

use thawribbon::raw::Groups;

use crate::caster::{
    Call, DROPPED, Habits, LEAVES, REFUSED, RIGHT, expect_judge_caught, is_given, judged_by, mended, or_else,
    otherwise, with_records,
};
use crate::gatherer::read;
use crate::harness::{Wrong, expect_not_caught};

/// A record is written into a space where the bits around it are 1, and read back.
#[test]
fn records_written_and_read_back_are_not_caught() {
    expect_not_caught(judged_by(Habits {
        is_given: |record| {
            let mut space = [0xFF; 4096];
            let numbers = record.max_group & 63 | (record.num_group & 63) << 16 | (record.enable & 1) << 31;
            let place = record.index & 63 | record.base & !0xFFF | 0xFC0;
            let header = 0x1_0012 | (numbers | 0x7FC0_FFC0) << 32;
            for (at, value) in [(0, header), (8, place), (16, record.receive), (24, record.block_all)] {
                space[0xFD8 + at..0xFE0 + at].copy_from_slice(&value.to_le_bytes());
            }
            read(&space, 0xFD8) == (0, *record)
        },
        ..RIGHT
    }));
}

#[test]
fn bounds_of_numbers_are_not_caught() {
    expect_not_caught(judged_by(Habits {
        is_given: |record| mended(*record) == *record,
        ..RIGHT
    }));
}

/// A cause why no reading gives a record: whether it has it, and the record without it.
type Cause = (fn(&Groups) -> bool, fn(Groups) -> Groups);

const CAUSES: [Cause; 6] = [
    (
        |record| record.max_group > 63,
        |record| Groups {
            max_group: 63,
            num_group: record.num_group & 63,
            ..record
        },
    ),
    (
        |record| record.num_group > record.max_group,
        |record| Groups {
            num_group: record.max_group,
            ..record
        },
    ),
    (
        |record| record.enable > 1,
        |record| Groups {
            enable: 1,
            index: record.index.max(12),
            ..record
        },
    ),
    (
        |record| record.index > 63,
        |record| Groups {
            index: record.index & 63 | 16,
            ..record
        },
    ),
    (
        |record| record.enable == 1 && record.index < 12,
        |record| Groups { index: 12, ..record },
    ),
    (
        |record| record.base & 0xFFF != 0,
        |record| Groups {
            base: record.base & !0xFFF,
            ..record
        },
    ),
];

/// Judges where a cause is not noticed in some records, by their places.
fn unnoticed(cause: usize, is_passed_over: impl Fn(&Call<'_>, usize) -> bool + 'static) -> Wrong {
    let (has_cause, without) = CAUSES[cause];
    with_records(
        move |call, place, record| match has_cause(&record) && is_passed_over(call, place) {
            true => without(record),
            false => record,
        },
    )
}

#[test]
fn each_cause_not_noticed() {
    for cause in 0..CAUSES.len() {
        expect_judge_caught(unnoticed(cause, |_, _| true));
    }
}

#[test]
fn each_cause_noticed_only_where_it_enters_or_only_elsewhere() {
    for cause in 0..CAUSES.len() {
        expect_judge_caught(unnoticed(cause, |call, place| place != call.entering));
        expect_judge_caught(unnoticed(cause, |call, place| place == call.entering));
    }
}

#[test]
fn each_cause_not_noticed_at_the_first_and_the_last_port() {
    for cause in 0..CAUSES.len() {
        expect_judge_caught(unnoticed(cause, |_, place| place == 0));
        expect_judge_caught(unnoticed(cause, |call, place| place + 1 == call.ports.len()));
        expect_judge_caught(unnoticed(cause, |_, place| place == 31));
    }
}

#[test]
fn no_cause_noticed_at_one_port() {
    for passed in 0..32 {
        expect_judge_caught(with_records(
            move |_, place, record| {
                if place == passed { mended(record) } else { record }
            },
        ));
    }
}

#[test]
fn causes_noticed_only_in_records_that_are_enabled_or_that_are_not() {
    for passed in [0, 1] {
        for cause in [0, 1, 3, 5] {
            let is_passed_over = move |call: &Call<'_>, place: usize| call.ports[place].enable == passed;
            expect_judge_caught(unnoticed(cause, is_passed_over));
        }
        expect_judge_caught(with_records(move |_, _, record| match record.enable == passed {
            true => mended(record),
            false => record,
        }));
    }
}

#[test]
fn causes_noticed_only_up_to_the_port_that_is_entered_by_or_from_it_on() {
    expect_judge_caught(with_records(|call, place, record| match place > call.entering {
        true => mended(record),
        false => record,
    }));
    expect_judge_caught(with_records(|call, place, record| match place < call.entering {
        true => mended(record),
        false => record,
    }));
}

#[test]
fn causes_noticed_only_with_some_verdicts() {
    for verdict in [1, DROPPED, LEAVES] {
        expect_judge_caught(or_else(move |call, _| {
            Some(otherwise(call)).filter(|judged| judged.verdict == verdict)
        }));
    }
    expect_judge_caught(or_else(|call, _| {
        Some(otherwise(call)).filter(|judged| judged.verdict != LEAVES)
    }));
}

/// Of the ports that are not entered by, only those are looked at that are left by.
#[test]
fn causes_noticed_only_at_ports_that_are_left_by() {
    expect_judge_caught(with_records(|call, place, record| {
        let is_left_by = otherwise(call).ports >> place.min(31) & 1 == 1;
        if place == call.entering || is_left_by {
            record
        } else {
            mended(record)
        }
    }));
}

/// A number is cut to its bits and not refused.
#[test]
fn numbers_cut_to_their_bits() {
    let cuts: [fn(Groups) -> Groups; 8] = [
        |record| Groups {
            max_group: record.max_group & 63,
            ..record
        },
        |record| Groups {
            num_group: record.num_group & 63,
            ..record
        },
        |record| Groups {
            enable: record.enable & 1,
            ..record
        },
        |record| Groups {
            enable: u64::from(record.enable != 0),
            ..record
        },
        |record| Groups {
            enable: u64::from(record.enable & 1 != 0 && record.enable < 256),
            ..record
        },
        |record| Groups {
            index: record.index & 63,
            ..record
        },
        |record| Groups {
            base: record.base & !0xFFF,
            ..record
        },
        |record| Groups {
            base: record.base & !0x3F,
            ..record
        },
    ];
    for cut in cuts {
        expect_judge_caught(with_records(move |_, _, record| cut(record)));
    }
}

/// A number is first put into fewer bits, so that what is beyond them is not seen.
#[test]
fn numbers_put_into_fewer_bits() {
    for bits in [8, 16, 32, 63] {
        let cut = move |number: u64| number & ((1 << bits) - 1);
        expect_judge_caught(with_records(move |_, _, record| Groups {
            max_group: cut(record.max_group),
            ..record
        }));
        expect_judge_caught(with_records(move |_, _, record| Groups {
            num_group: cut(record.num_group),
            ..record
        }));
        expect_judge_caught(with_records(move |_, _, record| Groups {
            enable: cut(record.enable),
            ..record
        }));
        expect_judge_caught(with_records(move |_, _, record| Groups {
            index: cut(record.index),
            ..record
        }));
    }
}

#[test]
fn each_low_bit_of_a_base_not_noticed() {
    for bit in 0..12 {
        expect_judge_caught(with_records(move |_, _, record| Groups {
            base: record.base & !(1 << bit),
            ..record
        }));
    }
}

#[test]
fn each_index_under_12_not_noticed() {
    for index in 0..12 {
        expect_judge_caught(with_records(move |_, _, record| {
            match record.index == index && record.enable == 1 {
                true => Groups { index: 12, ..record },
                false => record,
            }
        }));
    }
}

/// The record with another number of one sort.
const fn with_max_group(record: &Groups, max_group: u64) -> Groups {
    Groups { max_group, ..*record }
}

const fn with_num_group(record: &Groups, num_group: u64) -> Groups {
    Groups { num_group, ..*record }
}

const fn with_index(record: &Groups, index: u64) -> Groups {
    Groups { index, ..*record }
}

/// A record is let through that is given but for one number.
#[test]
fn a_bound_of_a_number_that_is_too_wide() {
    let others: [fn(&Groups) -> bool; 6] = [
        |record| record.max_group == 64 && is_given(&with_max_group(record, 63)),
        |record| record.num_group <= 63 && is_given(&with_num_group(record, 0)),
        |record| record.num_group.wrapping_sub(record.max_group) == 1 && is_given(&with_num_group(record, 0)),
        |record| record.num_group <= 63 && record.enable == 0 && is_given(&with_num_group(record, 0)),
        |record| record.index == 64 && is_given(&with_index(record, 63)),
        |record| record.index == 11 && is_given(&with_index(record, 12)),
    ];
    for lets_through in others {
        expect_judge_caught(let_through(lets_through));
    }
}

/// Judges where some records are taken as they are that no reading gives.
fn let_through(lets_through: fn(&Groups) -> bool) -> Wrong {
    or_else(move |call, judged| {
        let is_taken = |record: &Groups| is_given(record) || lets_through(record);
        let all = judged.number == 1 && call.ports.len() <= 32 && call.entering < call.ports.len();
        (all && call.ports.iter().all(is_taken)).then(|| otherwise(call))
    })
}

#[test]
fn a_bound_of_a_number_that_is_too_narrow() {
    let tests: [fn(&Groups) -> bool; 4] = [
        |record| is_given(record) && record.num_group < record.max_group,
        |record| is_given(record) && (record.enable == 0 || record.index > 12),
        |record| is_given(record) && record.index < 63,
        |record| is_given(record) && record.max_group < 63,
    ];
    for is_given in tests {
        expect_judge_caught(judged_by(Habits { is_given, ..RIGHT }));
    }
}

/// Records that a reading gives, although a host may wonder at them.
#[test]
fn records_refused_that_a_reading_gives() {
    let refused: [fn(&Groups) -> bool; 10] = [
        |record| record.enable == 0 && record.index < 12,
        |record| record.enable == 0,
        |record| record.base == 0,
        |record| record.receive & !(u64::MAX >> (63 - record.max_group)) != 0,
        |record| record.receive & !(u64::MAX >> (63 - record.num_group)) != 0,
        |record| record.block_all & !(u64::MAX >> (63 - record.max_group)) != 0,
        |record| record.receive & record.block_all != 0,
        |record| u128::from(record.base) + ((u128::from(record.num_group) + 1) << record.index) > 1 << 64,
        |record| record.base % (1 << record.index) != 0,
        |record| record.max_group == 0,
    ];
    for is_refused in refused {
        expect_judge_caught(or_else(move |call, judged| {
            (judged.number == 0 && call.ports.iter().any(is_refused)).then_some(REFUSED)
        }));
    }
}

#[test]
fn ports_that_are_not_alike_refused() {
    let unlike: [fn(&Groups, &Groups) -> bool; 4] = [
        |one, other| one.base != other.base,
        |one, other| one.index != other.index,
        |one, other| one.enable != other.enable,
        |one, other| one.num_group != other.num_group,
    ];
    for differ in unlike {
        expect_judge_caught(or_else(move |call, judged| {
            let any = call.ports.iter().any(|port| differ(port, &call.ports[0]));
            (judged.number == 0 && any).then_some(REFUSED)
        }));
    }
}
