//! Wrong ways to keep the captures of two functions. By request 11/13 each has its own.

use second::compare::{DuoCall, DuoServed, Reference, Subject, meaning, plain};
use thawribbon::raw::Capture;

use crate::coupler::{
    ALTERNATE, PRIMARY, SIDES, accepting, again, by_two_boards, code, expect_caught_accepting, expect_caught_declining,
    expect_caught_refusing, expect_caught_serving, is_trusted, is_type_1, kept, named, refused, rehearsed,
    served_alone, target, whom,
};
use crate::harness::{Wrong, expect_two_caught, expect_two_not_caught};

#[test]
fn the_forms_of_these_with_nothing_wrong_are_not_caught() {
    expect_two_not_caught(accepting(|_| None));
    expect_two_not_caught(Wrong::duo(|mut call| by_two_boards(&mut call)));
}

/// Serves, and then has other captures where the packet captured: those of the primary and of the alternate, by which of
/// them captured and what.
fn capturing(other: impl Fn(usize, Capture, [Capture; 2]) -> [Capture; 2] + 'static) -> Wrong {
    accepting(move |call| {
        let side = whom(call)?;
        let before = kept(call);
        let served = Reference.serve_pair(again(call));
        let captures = code(call) == 0x44 && call.reply[6] == 0;
        let kept = if captures {
            other(side, served.kept[side], before.map(|kept| plain(meaning(kept))))
        } else {
            served.kept
        };
        Some(DuoServed { kept, ..served })
    })
}

#[test]
fn what_one_function_captures_is_captured_by_both() {
    expect_two_caught(capturing(|_, captured, _| [captured; 2]), "serve_pair");
}

#[test]
fn what_the_primary_captures_is_captured_by_both() {
    for wrong in SIDES {
        let shares = move |side: usize, captured, mut before: [Capture; 2]| {
            before[side] = captured;
            if side == wrong { [captured; 2] } else { before }
        };
        expect_two_caught(capturing(shares), "serve_pair");
    }
}

#[test]
fn what_one_function_captures_is_captured_by_the_other() {
    for wrong in SIDES {
        let crosses = move |side: usize, captured, mut before: [Capture; 2]| {
            let into = if side == wrong { 1 - side } else { side };
            before[into] = captured;
            before
        };
        expect_two_caught(capturing(crosses), "serve_pair");
    }
}

#[test]
fn one_function_forgets_where_the_other_captures() {
    for wrong in SIDES {
        let forgets = move |side: usize, captured, mut before: [Capture; 2]| {
            before[side] = captured;
            if side == wrong {
                before[1 - side] = plain(None);
            }
            before
        };
        expect_two_caught(capturing(forgets), "serve_pair");
    }
}

#[test]
fn one_function_does_not_capture() {
    for wrong in SIDES {
        let keeps = move |side: usize, captured, mut before: [Capture; 2]| {
            if side != wrong {
                before[side] = captured;
            }
            before
        };
        expect_two_caught(capturing(keeps), "serve_pair");
    }
}

#[test]
fn one_function_captures_only_where_the_other_has() {
    for wanted in [true, false] {
        let keeps = move |side: usize, captured, mut before: [Capture; 2]| {
            if (before[1 - side].captured != 0) == wanted {
                before[side] = captured;
            }
            before
        };
        expect_two_caught(capturing(keeps), "serve_pair");
    }
}

#[test]
fn only_the_bus_or_only_the_device_is_shared() {
    for bus in [true, false] {
        let shares = move |side: usize, captured: Capture, mut before: [Capture; 2]| {
            before[side] = captured;
            let other = &mut before[1 - side];
            if other.captured != 0 {
                *(if bus { &mut other.bus } else { &mut other.device }) =
                    if bus { captured.bus } else { captured.device };
            }
            before
        };
        expect_two_caught(capturing(shares), "serve_pair");
    }
}

/// One capture for the whole board, kept by the subject: whoever captured last.
#[test]
fn there_is_one_capture_for_both_functions() {
    let one = |mut call: DuoCall<'_>| {
        if rehearsed(&mut call).0.number != 0 {
            return Reference.serve_pair(call);
        }
        let [primary, alternate] = kept(&call);
        let common = if primary.captured != 0 { primary } else { alternate };
        for side in &mut call.sides {
            side.kept = common;
        }
        Reference.serve_pair(call)
    };
    expect_two_caught(Wrong::duo(one), "serve_pair");
}

/// Serves trusted requests for a function as if it had captured something else.
fn expect_caught_trusting(other: impl Fn([Option<(u8, u8)>; 2], usize, (u8, u8)) -> Option<(u8, u8)> + Copy + 'static) {
    expect_caught_serving(move |call, side| {
        let captures = kept(call).map(meaning);
        let own = plain(captures[side]);
        let taken = plain(other(captures, side, target(call)));
        is_trusted(call).then(|| {
            let mut served = served_alone(call, side, |alone| alone.kept = taken);
            served.kept[side] = own;
            served
        })
    });
}

#[test]
fn a_trusted_request_is_held_against_the_others_capture() {
    expect_caught_trusting(|captures, side, _| captures[1 - side]);
}

#[test]
fn a_trusted_request_is_held_against_either_capture() {
    expect_caught_trusting(|captures, side, target| {
        let either = captures.contains(&Some(target));
        if either { Some(target) } else { captures[side] }
    });
}

#[test]
fn a_trusted_request_is_held_against_the_others_capture_while_its_own_is_nothing() {
    expect_caught_trusting(|captures, side, _| captures[side].or(captures[1 - side]));
}

#[test]
fn a_trusted_request_is_held_against_both_captures() {
    expect_caught_trusting(|captures, side, _| {
        captures[side].filter(|_| captures[1 - side].is_none() || captures[0] == captures[1])
    });
}

#[test]
fn a_trusted_request_is_served_only_where_the_other_has_captured() {
    expect_caught_trusting(|captures, side, _| captures[side].filter(|_| captures[1 - side].is_some()));
}

#[test]
fn a_trusted_request_is_held_against_nothing() {
    expect_caught_trusting(|_, _, target| Some(target));
}

#[test]
fn the_bus_of_one_capture_and_the_device_of_the_other() {
    expect_caught_trusting(|captures, side, _| {
        let (own, others) = (captures[side]?, captures[1 - side].or(captures[side])?);
        Some((own.0, others.1))
    });
    expect_caught_trusting(|captures, side, _| {
        let (own, others) = (captures[side]?, captures[1 - side].or(captures[side])?);
        Some((others.0, own.1))
    });
}

#[test]
fn the_other_captures_id_in_the_reply() {
    expect_caught_serving(|call, side| {
        let others = meaning(call.sides[1 - side].kept).unwrap_or((0, 0));
        let served = Reference.serve_pair(again(call));
        (call.reply[4], call.reply[5]) = (others.0, others.1 << 3 | call.sides[side].function);
        Some(served)
    });
}

#[test]
fn a_write_for_neither_captures() {
    for wrong in [&[PRIMARY][..], &[ALTERNATE], &SIDES] {
        expect_caught_declining(move |call| {
            let mut served = Reference.serve_pair(again(call));
            if code(call) == 0x44 {
                for &side in wrong {
                    served.kept[side] = plain(Some(target(call)));
                }
            }
            Some(served)
        });
    }
}

#[test]
fn a_type_1_write_captures_for_the_function_that_it_names() {
    for wrong in SIDES {
        expect_caught_declining(move |call| {
            let mut served = Reference.serve_pair(again(call));
            if code(call) == 0x45 && named(call) == Some(wrong) {
                served.kept[wrong] = plain(Some(target(call)));
            }
            Some(served)
        });
    }
}

#[test]
fn a_trusted_write_captures() {
    expect_caught_serving(|call, side| {
        let mut served = Reference.serve_pair(again(call));
        if code(call) == 0x5B {
            served.kept[side] = plain(Some(target(call)));
        }
        Some(served)
    });
}

#[test]
fn a_poisoned_write_captures() {
    expect_caught_serving(|call, side| {
        let mut served = Reference.serve_pair(again(call));
        if code(call) == 0x44 {
            served.kept[side] = plain(Some(target(call)));
        }
        Some(served)
    });
}

#[test]
fn a_type_1_request_or_one_for_neither_forgets() {
    for wrong in SIDES {
        for type_1 in [true, false] {
            expect_caught_declining(move |call| {
                let mut served = Reference.serve_pair(again(call));
                if is_type_1(call) == type_1 {
                    served.kept[wrong] = plain(None);
                }
                Some(served)
            });
        }
    }
}

#[test]
fn the_captures_are_handed_back_in_the_other_order() {
    expect_caught_accepting(|call| {
        let served = Reference.serve_pair(again(call));
        let [primary, alternate] = served.kept;
        Some(DuoServed {
            kept: [alternate, primary],
            ..served
        })
    });
}

#[test]
fn one_capture_is_handed_back_twice() {
    for wrong in SIDES {
        expect_caught_accepting(move |call| {
            let served = Reference.serve_pair(again(call));
            Some(DuoServed {
                kept: [served.kept[wrong]; 2],
                ..served
            })
        });
    }
}

#[test]
fn a_capture_is_not_made_plain_with_number_0() {
    for wrong in SIDES {
        expect_caught_accepting(move |call| {
            let before = call.sides[wrong].kept;
            let mut served = Reference.serve_pair(again(call));
            if meaning(before) == meaning(served.kept[wrong]) {
                served.kept[wrong] = before;
            }
            Some(served)
        });
    }
}

#[test]
fn the_capture_of_the_function_that_is_not_named_is_not_made_plain() {
    for wrong in SIDES {
        expect_caught_accepting(move |call| {
            let (before, whom) = (call.sides[wrong].kept, whom(call));
            let mut served = Reference.serve_pair(again(call));
            if whom != Some(wrong) {
                served.kept[wrong] = before;
            }
            Some(served)
        });
    }
}

#[test]
fn a_capture_is_made_plain_with_a_refusal() {
    for wrong in SIDES {
        expect_caught_refusing(&[1, 2, 3, 4, 5, 6], move |call, number| {
            let mut served = refused(call, number);
            served.kept[wrong] = plain(meaning(served.kept[wrong]));
            Some(served)
        });
    }
}

#[test]
fn a_capture_is_forgotten_with_a_refusal() {
    for wrong in SIDES {
        for numbers in [&[1][..], &[2], &[3], &[4], &[5], &[6]] {
            expect_caught_refusing(numbers, move |call, number| {
                let mut served = refused(call, number);
                served.kept[wrong] = plain(None);
                Some(served)
            });
        }
    }
}

#[test]
fn only_1_counts_as_captured() {
    for wrong in SIDES {
        expect_caught_accepting(move |call| {
            (call.sides[wrong].kept.captured > 1).then(|| {
                let mut call = again(call);
                call.sides[wrong].kept = plain(None);
                Reference.serve_pair(call)
            })
        });
    }
}

#[test]
fn bytes_beside_nothing_captured_are_taken_as_a_capture() {
    for wrong in SIDES {
        expect_caught_accepting(move |call| {
            let kept = call.sides[wrong].kept;
            (kept.captured == 0 && kept.device < 32).then(|| {
                let mut call = again(call);
                call.sides[wrong].kept.captured = 1;
                Reference.serve_pair(call)
            })
        });
    }
}

#[test]
fn a_device_over_31_is_refused_while_nothing_is_captured() {
    for wrong in SIDES {
        expect_caught_accepting(move |call| {
            let kept = call.sides[wrong].kept;
            (kept.captured == 0 && kept.device > 31).then(|| refused(call, 1))
        });
    }
}

/// Fails unless a reset is caught that leaves other captures.
fn expect_reset_caught(other: impl FnMut([Capture; 2]) -> [Capture; 2] + 'static) {
    expect_two_caught(Wrong::duo_reset(other), "reset_pair");
}

/// A reset that forgets the primary's capture only.
pub fn with_a_reset_of_the_primary_only() -> Wrong {
    Wrong::duo_reset(|[_, alternate]| [plain(None), plain(meaning(alternate))])
}

#[test]
fn a_reset_that_forgets_one_capture_only() {
    expect_two_caught(with_a_reset_of_the_primary_only(), "reset_pair");
    expect_reset_caught(|[primary, _]| [plain(meaning(primary)), plain(None)]);
}

#[test]
fn a_reset_that_keeps_both_captures() {
    expect_reset_caught(|kept| kept);
    expect_reset_caught(|kept| kept.map(|kept| plain(meaning(kept))));
}

#[test]
fn a_reset_that_forgets_the_alternates_capture_only_where_the_primary_has_one() {
    expect_reset_caught(|[primary, alternate]| match primary.captured {
        0 => [plain(None), plain(meaning(alternate))],
        _ => [plain(None); 2],
    });
    expect_reset_caught(|[primary, alternate]| match alternate.captured {
        0 => [plain(meaning(primary)), plain(None)],
        _ => [plain(None); 2],
    });
}

#[test]
fn a_reset_that_forgets_captures_that_are_alike_only() {
    expect_reset_caught(|kept| {
        let [primary, alternate] = kept.map(meaning);
        if primary == alternate { [plain(None); 2] } else { kept }
    });
}

#[test]
fn a_reset_that_leaves_the_bytes_of_a_capture() {
    for wrong in SIDES {
        expect_reset_caught(move |kept| {
            let mut after = [plain(None); 2];
            after[wrong] = Capture {
                captured: 0,
                ..kept[wrong]
            };
            after
        });
    }
}

#[test]
fn a_reset_that_lets_the_captures_change_places() {
    expect_reset_caught(|[primary, alternate]| [alternate, primary]);
}
