//! Wrong ways to judge the edition of a board. By request 9/13 it is 1 or 2, and "Any other edition is answer 1."

use second::compare::{Reference, ServeCall, Subject, meaning, plain};
use thawribbon::raw::Served;

use crate::harness::{Wrong, expect_caught, expect_not_caught};
use crate::reviser::{
    expect_caught_or_else, expect_caught_taking, has_bit_7, is_of, or_else, refused, rehearsed_by, served_by, taking,
};
use crate::serving::{again, code, short_completion};

#[test]
fn the_forms_of_these_with_nothing_wrong_are_not_caught() {
    expect_not_caught(taking(|edition| edition));
    expect_not_caught(or_else(|_, _| None));
}

#[test]
fn editions_told_in_another_way_are_not_caught() {
    expect_not_caught(taking(|edition| if edition.wrapping_sub(1) < 2 { edition } else { 7 }));
    expect_not_caught(taking(
        |edition| if edition == 0 || edition > 2 { u32::MAX } else { edition },
    ));
    expect_not_caught(taking(|edition| match edition.to_le_bytes() {
        [1, 0, 0, 0] => 1,
        [2, 0, 0, 0] => 2,
        _ => 0,
    }));
}

#[test]
fn the_edition_ignored() {
    expect_caught_taking(|edition| if edition == 2 { 1 } else { edition });
    expect_caught_taking(|edition| if edition == 1 { 2 } else { edition });
    expect_caught_taking(|_| 1);
    expect_caught_taking(|_| 2);
}

#[test]
fn the_two_editions_taken_for_each_other() {
    expect_caught_taking(|edition| match edition {
        1 => 2,
        2 => 1,
        other => other,
    });
}

#[test]
fn all_other_editions_taken_for_one_of_the_two() {
    expect_caught_taking(|edition| if edition == 2 { 2 } else { 1 });
    expect_caught_taking(|edition| if edition == 1 { 1 } else { 2 });
    expect_caught_taking(|edition| edition.clamp(1, 2));
    expect_caught_taking(|edition| edition.min(2));
    expect_caught_taking(|edition| edition.max(1));
}

#[test]
fn one_low_edition_taken_for_one_of_the_two() {
    for wrong in (0..16).filter(|wrong| ![1, 2].contains(wrong)) {
        for taken in [1, 2] {
            expect_caught_taking(move |edition| if edition == wrong { taken } else { edition });
        }
    }
}

#[test]
fn one_far_edition_taken_for_one_of_the_two() {
    for wrong in [0x101, 0x102, 0x1_0001, 0x1_0002, 0x8000_0001, 0x8000_0002, u32::MAX] {
        for taken in [1, 2] {
            expect_caught_taking(move |edition| if edition == wrong { taken } else { edition });
        }
    }
}

#[test]
fn only_the_low_bits_of_the_edition_looked_at() {
    for bits in 2..32 {
        expect_caught_taking(move |edition| edition & ((1 << bits) - 1));
    }
}

#[test]
fn one_bit_of_the_edition_not_looked_at() {
    for bit in 0..32 {
        expect_caught_taking(move |edition| edition & !(1 << bit));
    }
}

#[test]
fn one_byte_or_half_of_the_edition_not_looked_at() {
    for mask in [0xFF, 0xFF00, 0x00FF_0000, 0xFF00_0000, 0xFFFF, 0xFFFF_0000] {
        expect_caught_taking(move |edition| edition & !mask);
    }
}

#[test]
fn the_edition_compared_as_a_number_with_a_sign() {
    expect_caught_taking(|edition| if (edition as i32) < 0 { 1 } else { edition });
    expect_caught_taking(|edition| if (edition as i32) < 0 { 2 } else { edition });
    expect_caught_taking(|edition| (edition as i32).unsigned_abs());
    expect_caught_taking(|edition| {
        if (edition as i32) <= 2 {
            (edition as i32).max(1) as u32
        } else {
            edition
        }
    });
}

#[test]
fn the_edition_counted_from_another_number() {
    expect_caught_taking(|edition| edition.wrapping_add(1));
    expect_caught_taking(|edition| edition.wrapping_sub(1));
}

#[test]
fn the_edition_told_by_its_bits() {
    expect_caught_taking(|edition| 2 - (edition & 1));
    expect_caught_taking(|edition| if edition & 2 != 0 { 2 } else { edition });
    expect_caught_taking(|edition| if edition & 1 != 0 { 1 } else { edition });
    expect_caught_taking(u32::count_ones);
    expect_caught_taking(|edition| edition.checked_ilog2().map_or(0, |bit| bit + 1));
}

#[test]
fn the_bytes_of_the_edition_in_another_order() {
    let both = |edition: u32, other: u32| if matches!(edition, 1 | 2) { edition } else { other };
    expect_caught_taking(u32::swap_bytes);
    expect_caught_taking(move |edition| both(edition, edition.swap_bytes()));
    expect_caught_taking(move |edition| both(edition, edition.rotate_left(16)));
    expect_caught_taking(move |edition| both(edition, edition.reverse_bits()));
}

/// Fails unless a server is caught that answers in another way where the edition is the only cause of 1.
fn expect_caught_at_fault(other: impl Fn(&mut ServeCall<'_>) -> Option<Served> + 'static) {
    expect_caught_or_else(move |call, _| {
        let is_at_fault = !matches!(call.description.edition, 1 | 2) && rehearsed_by(1, call).0.number != 1;
        if is_at_fault { other(call) } else { None }
    });
}

#[test]
fn another_edition_given_another_number() {
    for number in [0, 2, 3, 4, 5, 6, 7, 8, 13] {
        expect_caught_at_fault(move |call| Some(refused(call, number)));
    }
}

#[test]
fn another_edition_tested_after_another_number() {
    for number in 2..=6 {
        expect_caught_at_fault(move |call| (rehearsed_by(1, call).0.number == number).then(|| refused(call, number)));
    }
}

#[test]
fn another_edition_given_4_where_bit_7_is_set() {
    expect_caught_at_fault(|call| has_bit_7(call.packet).then(|| refused(call, 4)));
}

#[test]
fn another_edition_answered_by_unsupported_request() {
    expect_caught_at_fault(|call| {
        let due = rehearsed_by(1, call).0.number == 0;
        let kept = meaning(call.kept);
        due.then(|| short_completion(call, kept, 0x20))
    });
}

/// Fails unless a server is caught that takes other editions for 1 in some calls.
fn expect_caught_serving(is_served: impl Fn(&ServeCall<'_>) -> bool + 'static) {
    expect_caught_at_fault(move |call| is_served(call).then(|| served_by(1, call)));
}

#[test]
fn another_edition_refused_only_where_bit_7_is_set_or_clear() {
    expect_caught_serving(|call| !has_bit_7(call.packet));
    expect_caught_serving(|call| has_bit_7(call.packet));
}

#[test]
fn another_edition_refused_only_for_some_packets() {
    expect_caught_serving(|call| call.packet.is_empty());
    expect_caught_serving(|call| call.packet.len() < 12);
    expect_caught_serving(|call| call.packet.len() >= 12);
    for code in [0x04, 0x44, 0x05, 0x45, 0x1B, 0x5B] {
        expect_caught_serving(move |call| is_of(call.packet, &[code]));
    }
    expect_caught_serving(|call| call.packet.len() >= 12 && code(call) & 0x40 == 0);
    expect_caught_serving(|call| is_of(call.packet, &[0x1B, 0x5B]));
    expect_caught_serving(|call| is_of(call.packet, &[0x04, 0x44, 0x05, 0x45]));
}

#[test]
fn another_edition_refused_only_before_or_after_a_capture() {
    expect_caught_serving(|call| call.kept.captured != 0);
    expect_caught_serving(|call| call.kept.captured == 0);
}

#[test]
fn something_changed_with_the_refusal() {
    expect_caught_at_fault(|call| {
        call.reply.iter_mut().for_each(|byte| *byte = 0);
        None
    });
    expect_caught_at_fault(|call| {
        call.ordinary.iter_mut().for_each(|byte| *byte = 0);
        None
    });
    expect_caught_at_fault(|call| {
        Some(Served {
            length: 12,
            ..refused(call, 1)
        })
    });
    expect_caught_at_fault(|call| {
        Some(Served {
            capture: plain(meaning(call.kept)),
            ..refused(call, 1)
        })
    });
    expect_caught_at_fault(|call| {
        served_by(1, call);
        Some(refused(call, 1))
    });
}

#[test]
fn the_edition_of_another_board() {
    let mut first = None;
    let remembers = move |mut call: ServeCall<'_>| {
        let edition = call.description.edition;
        let first = *first.get_or_insert(edition);
        let taken = if matches!(edition, 1 | 2) { first } else { edition };
        served_by(taken, &mut call)
    };
    expect_caught(Wrong::serve(remembers), "serve");
    let mut last = 1;
    let lags = move |mut call: ServeCall<'_>| {
        let edition = call.description.edition;
        if !matches!(edition, 1 | 2) {
            return Reference.serve(call);
        }
        let taken = std::mem::replace(&mut last, edition);
        served_by(taken, &mut call)
    };
    expect_caught(Wrong::serve(lags), "serve");
}

#[test]
fn the_edition_of_a_board_that_changes() {
    let mut met = false;
    let changes = move |mut call: ServeCall<'_>| {
        let is_right = matches!(call.description.edition, 1 | 2);
        let edition = if met && is_right { 2 } else { call.description.edition };
        met |= has_bit_7(call.packet);
        served_by(edition, &mut call)
    };
    expect_caught(Wrong::serve(changes), "serve");
}

#[test]
fn the_edition_looked_at_while_something_is_captured_only() {
    let looks = |captured: bool| {
        move |mut call: ServeCall<'_>| {
            let is_right = matches!(call.description.edition, 1 | 2);
            if is_right && (call.kept.captured != 0) != captured {
                return served_by(1, &mut call);
            }
            Reference.serve(again(&mut call))
        }
    };
    expect_caught(Wrong::serve(looks(true)), "serve");
    expect_caught(Wrong::serve(looks(false)), "serve");
}
