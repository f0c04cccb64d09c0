//! Wrong ways to decide what becomes of a group that is hit, by request 8/13: whether it is dropped, and which ports it
//! leaves by.

use thawribbon::raw::{Groups, Judged};

use crate::caster::{
    DROPPED, Habits, LEAVES, REFUSED, RIGHT, expect_drop_caught, expect_judge_caught, expect_leaving_caught, group,
    has, judged_by, or_else, with_told,
};
use crate::harness::expect_not_caught;

#[test]
fn masks_in_place_of_shifts_are_not_caught() {
    expect_not_caught(judged_by(Habits {
        is_dropped: |call, group| call.entered().block_all & 1 << group != 0,
        is_left_by: |call, place, group| place != call.entering && call.ports[place].receive & 1 << group != 0,
        ..RIGHT
    }));
}

#[test]
fn a_set_of_all_receivers_without_the_one_entered_by_is_not_caught() {
    expect_not_caught(with_told(LEAVES, |call, judged| {
        let receives = |port: &Groups| u32::from(has(port.receive, judged.group.into()));
        let all = call.ports.iter().rev().fold(0, |set, port| set << 1 | receives(port));
        Judged {
            ports: all & !(1 << call.entering),
            ..judged
        }
    }));
}

#[test]
fn block_all_not_looked_at_or_turned_round() {
    expect_drop_caught(|_, _| false);
    expect_drop_caught(|_, _| true);
    expect_drop_caught(|call, group| !has(call.entered().block_all, group));
}

#[test]
fn block_all_taken_from_another_port() {
    expect_drop_caught(|call, group| has(call.ports[0].block_all, group));
    expect_drop_caught(|call, group| has(call.ports[call.ports.len() - 1].block_all, group));
    expect_drop_caught(|call, group| call.ports.iter().any(|port| has(port.block_all, group)));
    expect_drop_caught(|call, group| call.ports.iter().all(|port| has(port.block_all, group)));
    expect_drop_caught(|call, group| {
        let next = (call.entering + 1) % call.ports.len();
        has(call.ports[next].block_all, group)
    });
}

/// "that port's Block All": those of the others do not count.
#[test]
fn block_all_asked_of_the_port_that_is_left_by() {
    expect_leaving_caught(|call, place, group| {
        (RIGHT.is_left_by)(call, place, group) && !has(call.ports[place].block_all, group)
    });
    expect_judge_caught(judged_by(Habits {
        is_dropped: |_, _| false,
        is_left_by: |call, place, group| {
            (RIGHT.is_left_by)(call, place, group) && !has(call.ports[place].block_all, group)
        },
        ..RIGHT
    }));
    expect_judge_caught(judged_by(Habits {
        is_dropped: |_, _| false,
        is_left_by: |call, place, group| {
            (RIGHT.is_left_by)(call, place, group) && !has(call.entered().block_all, group)
        },
        ..RIGHT
    }));
}

#[test]
fn another_register_for_block_all() {
    expect_drop_caught(|call, group| has(call.entered().receive, group));
    expect_drop_caught(|call, group| !has(call.entered().receive, group));
    expect_drop_caught(|call, group| has(call.entered().block_all | call.entered().receive, group));
    expect_drop_caught(|call, group| has(call.entered().block_all & call.entered().receive, group));
    expect_drop_caught(|call, group| has(call.entered().block_all & !call.entered().receive, group));
    expect_drop_caught(|call, _| call.entered().block_all != 0);
    expect_drop_caught(|call, _| call.entered().block_all == u64::MAX);
}

/// Which bit of a register is looked at for a group.
const OTHER_BITS: [fn(u64) -> u64; 6] = [
    |group| group % 32,
    |group| 63 - group,
    |group| (group + 1) % 64,
    |group| (group + 63) % 64,
    |group| group ^ 0x38,
    |group| group ^ 0x07,
];

#[test]
fn another_bit_of_a_register() {
    for bit in OTHER_BITS {
        expect_judge_caught(or_else(move |call, judged| {
            let blocks = judged.verdict >= DROPPED && has(call.entered().block_all, bit(judged.group.into()));
            (blocks != (judged.verdict == DROPPED)).then_some(Judged {
                verdict: DROPPED,
                ports: 0,
                ..judged
            })
        }));
        expect_judge_caught(with_told(LEAVES, move |call, judged| {
            let receives =
                |place: usize| place != call.entering && has(call.ports[place].receive, bit(judged.group.into()));
            let places = (0..call.ports.len()).filter(|&place| receives(place));
            Judged {
                ports: places.fold(0, |set, place| set | 1 << place),
                ..judged
            }
        }));
    }
}

#[test]
fn the_high_half_of_a_register_forgotten() {
    expect_drop_caught(|call, group| has(call.entered().block_all & 0xFFFF_FFFF, group));
    expect_drop_caught(|call, group| has(call.entered().block_all & !0xFFFF_FFFF, group));
    expect_leaving_caught(|call, place, group| {
        place != call.entering && has(call.ports[place].receive & 0xFFFF_FFFF, group)
    });
    expect_leaving_caught(|call, place, group| {
        place != call.entering && has(call.ports[place].receive & !0xFFFF_FFFF, group)
    });
}

/// One bit of Block All, or of Receive, is not looked at.
#[test]
fn each_bit_of_a_register_passed_over() {
    for passed in 0..64 {
        expect_judge_caught(or_else(move |call, judged| {
            let places = (0..call.ports.len()).filter(|&place| (RIGHT.is_left_by)(call, place, passed));
            (judged.verdict == DROPPED && u64::from(judged.group) == passed).then(|| Judged {
                verdict: LEAVES,
                ports: places.fold(0, |set, place| set | 1 << place),
                ..judged
            })
        }));
        expect_judge_caught(with_told(LEAVES, move |_, judged| {
            match u64::from(judged.group) == passed {
                true => Judged { ports: 0, ..judged },
                false => judged,
            }
        }));
    }
}

#[test]
fn receive_asked_of_the_port_that_is_entered_by() {
    expect_leaving_caught(|call, place, group| place != call.entering && has(call.entered().receive, group));
    expect_leaving_caught(|call, place, group| {
        (RIGHT.is_left_by)(call, place, group) && has(call.entered().receive, group)
    });
}

#[test]
fn receive_not_asked_or_turned_round() {
    expect_leaving_caught(|call, place, _| place != call.entering);
    expect_leaving_caught(|_, _, _| false);
    expect_leaving_caught(|call, place, group| place != call.entering && !has(call.ports[place].receive, group));
    expect_leaving_caught(|call, place, group| place != call.entering && has(call.ports[place].block_all, group));
    expect_leaving_caught(|call, place, _| place != call.entering && call.ports[place].receive != 0);
}

#[test]
fn the_port_that_is_entered_by_left_by_too() {
    expect_leaving_caught(|call, place, group| has(call.ports[place].receive, group));
    expect_leaving_caught(|call, place, group| place == call.entering || has(call.ports[place].receive, group));
    expect_leaving_caught(|call, place, group| place == call.entering && has(call.ports[place].receive, group));
}

/// The request asks for the other ports' Receive bit, and for nothing else of theirs.
#[test]
fn more_asked_of_the_port_that_is_left_by() {
    expect_leaving_caught(|call, place, group| (RIGHT.is_left_by)(call, place, group) && call.ports[place].enable == 1);
    expect_leaving_caught(|call, place, group| {
        (RIGHT.is_left_by)(call, place, group) && group <= call.ports[place].num_group
    });
    expect_leaving_caught(|call, place, group| {
        (RIGHT.is_left_by)(call, place, group) && group <= call.ports[place].max_group
    });
    expect_leaving_caught(|call, place, number| {
        (RIGHT.is_left_by)(call, place, number) && group(&call.ports[place], call.address) == Some(number)
    });
    expect_leaving_caught(|call, place, group| {
        (RIGHT.is_left_by)(call, place, group) && call.ports[place].base == call.entered().base
    });
    expect_leaving_caught(|call, place, group| {
        (RIGHT.is_left_by)(call, place, group) && call.ports[place].index == call.entered().index
    });
    expect_leaving_caught(|call, place, group| {
        (RIGHT.is_left_by)(call, place, group) && call.address >= call.ports[place].base
    });
}

/// The group is found anew at each port, by its own numbers.
#[test]
fn the_group_relative_to_the_port_that_is_left_by() {
    expect_leaving_caught(|call, place, _| {
        let own = group(&call.ports[place], call.address);
        place != call.entering && own.is_some_and(|own| has(call.ports[place].receive, own))
    });
    expect_leaving_caught(|call, place, number| {
        let relative = Groups {
            base: call.ports[place].base,
            ..*call.entered()
        };
        let own = group(&relative, call.address).unwrap_or(number);
        place != call.entering && has(call.ports[place].receive, own)
    });
}

#[test]
fn each_port_passed_over_or_always_left_by() {
    for wrong in 0..32 {
        expect_judge_caught(with_told(LEAVES, move |_, judged| Judged {
            ports: judged.ports & !(1 << wrong),
            ..judged
        }));
        expect_judge_caught(with_told(LEAVES, move |call, judged| {
            let is_other = wrong < call.ports.len() && wrong != call.entering;
            Judged {
                ports: judged.ports | u32::from(is_other) << wrong,
                ..judged
            }
        }));
    }
}

#[test]
fn each_port_that_is_entered_by_left_by_too() {
    for wrong in 0..32 {
        expect_judge_caught(with_told(LEAVES, move |call, judged| {
            let is_own = call.entering == wrong && has(call.entered().receive, judged.group.into());
            Judged {
                ports: judged.ports | u32::from(is_own) << wrong,
                ..judged
            }
        }));
    }
}

#[test]
fn ports_told_in_another_order() {
    let orders: [fn(u32, usize) -> u32; 8] = [
        |ports, _| ports.reverse_bits(),
        |ports, length| ports.reverse_bits() >> (32 - length),
        |ports, _| ports.swap_bytes(),
        |ports, _| ports << 1,
        |ports, _| ports >> 1,
        |ports, _| ports & 0xFFFF,
        |ports, _| ports & 0xFF,
        |ports, _| ports & 0x7FFF_FFFF,
    ];
    for order in orders {
        expect_judge_caught(with_told(LEAVES, move |call, judged| Judged {
            ports: order(judged.ports, call.ports.len()),
            ..judged
        }));
    }
}

/// The place of a port among the others, where the one that is entered by has none.
#[test]
fn ports_counted_without_the_one_that_is_entered_by() {
    expect_judge_caught(with_told(LEAVES, |call, judged| {
        let below = (1 << call.entering) - 1;
        Judged {
            ports: judged.ports & below | judged.ports >> 1 & !below,
            ..judged
        }
    }));
}

#[test]
fn only_one_port_left_by() {
    expect_judge_caught(with_told(LEAVES, |_, judged| Judged {
        ports: judged.ports & judged.ports.wrapping_neg(),
        ..judged
    }));
    expect_judge_caught(with_told(LEAVES, |_, judged| Judged {
        ports: 1_u32
            .checked_shl(31_u32.wrapping_sub(judged.ports.leading_zeros()))
            .unwrap_or(0),
        ..judged
    }));
}

/// A number of ports in place of their set.
#[test]
fn ports_counted() {
    expect_judge_caught(with_told(LEAVES, |_, judged| Judged {
        ports: judged.ports.count_ones(),
        ..judged
    }));
}

#[test]
fn a_group_that_is_left_by_no_port_told_otherwise() {
    expect_judge_caught(with_told(LEAVES, |_, judged| match judged.ports {
        0 => REFUSED,
        _ => judged,
    }));
    expect_judge_caught(with_told(LEAVES, |call, judged| match judged.ports {
        0 => Judged {
            ports: 1 << call.entering,
            ..judged
        },
        _ => judged,
    }));
    expect_judge_caught(with_told(LEAVES, |_, judged| match judged.ports {
        0 => Judged { group: 0, ..judged },
        _ => judged,
    }));
}

#[test]
fn ports_told_where_it_is_dropped_or_hits_nothing() {
    expect_judge_caught(with_told(DROPPED, |call, judged| {
        let places = (0..call.ports.len()).filter(|&place| (RIGHT.is_left_by)(call, place, judged.group.into()));
        Judged {
            ports: places.fold(0, |set, place| set | 1 << place),
            ..judged
        }
    }));
    expect_judge_caught(with_told(DROPPED, |call, judged| Judged {
        ports: 1 << call.entering,
        ..judged
    }));
    expect_judge_caught(with_told(1, |call, judged| Judged {
        ports: (u32::MAX >> (32 - call.ports.len())) & !(1 << call.entering),
        ..judged
    }));
}

#[test]
fn dropped_told_as_left_by_none() {
    expect_judge_caught(with_told(DROPPED, |_, judged| Judged {
        verdict: LEAVES,
        ..judged
    }));
}
