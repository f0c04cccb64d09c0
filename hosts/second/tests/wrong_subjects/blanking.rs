//! Wrong ways to take a null capability, one whose ID is 0: at 100h, and further on.

use crate::harness::{Wrong, expect_caught, right_walk};
use crate::walker::{
    EXTENDED, Habits, LISTS, Memory, Verdict, holder, is_null, is_zero, listed, one_walked_by, refused, right,
};

/// A list whose chain is changed before it is listed, or refused as broken at its last structure.
fn relisted(place: usize, change: impl Fn(&[u8], Vec<u16>) -> Option<Vec<u16>> + 'static) -> Wrong {
    one_walked_by(place, move |list, space, room| {
        let mut chain = room.to_vec();
        let walked = right_walk(list, space, &mut chain);
        if walked.number != 0 {
            return walked;
        }
        chain.truncate(walked.count);
        let last = holder(&chain);
        change(space, chain).map_or(refused(11, last), |changed| listed(&changed, room))
    })
}

/// Sees that an extended list is caught which changes its chains where the capability at 100h is null.
fn expect_caught_at_100h(change: impl Fn(Vec<u16>) -> Option<Vec<u16>> + 'static) {
    let subject = relisted(EXTENDED, move |space, chain| match chain.first() {
        Some(&first) if is_null(EXTENDED, space, first) => change(chain),
        _ => Some(chain),
    });
    expect_caught(subject, "walk_extended");
}

#[test]
fn a_null_capability_at_100h_left_out() {
    expect_caught_at_100h(|chain| Some(chain[1..].to_vec()));
}

#[test]
fn a_null_capability_at_100h_not_followed() {
    expect_caught_at_100h(|chain| Some(chain[..1].to_vec()));
}

#[test]
fn a_null_capability_at_100h_refused() {
    expect_caught_at_100h(|_| None);
}

/// Sees that each list is caught which changes its chains by the place of a null capability in the middle.
fn expect_caught_in_the_middle(change: impl Fn(Vec<u16>, usize) -> Option<Vec<u16>> + Copy + 'static) {
    for (place, (_, entry, ..)) in LISTS.into_iter().enumerate() {
        let subject = relisted(place, move |space, chain| {
            let last = chain.len().saturating_sub(1);
            match (1..last).find(|&middle| is_null(place, space, chain[middle])) {
                Some(middle) => change(chain, middle),
                None => Some(chain),
            }
        });
        expect_caught(subject, entry);
    }
}

#[test]
fn a_null_capability_in_the_middle_taken_for_an_end() {
    expect_caught_in_the_middle(|chain, middle| Some(chain[..middle].to_vec()));
}

#[test]
fn a_null_capability_in_the_middle_taken_for_the_last() {
    expect_caught_in_the_middle(|chain, middle| Some(chain[..=middle].to_vec()));
}

#[test]
fn a_null_capability_in_the_middle_left_out() {
    expect_caught_in_the_middle(|chain, middle| Some([&chain[..middle], &chain[middle + 1..]].concat()));
}

#[test]
fn a_null_capability_in_the_middle_refused() {
    expect_caught_in_the_middle(|_, _| None);
}

/// Sees that each list is caught which leaves out a last header of some sort that is not the first.
fn expect_caught_at_the_end(is_left_out: fn(usize, &[u8], u16) -> bool) {
    for (place, (_, entry, ..)) in LISTS.into_iter().enumerate() {
        let subject = relisted(place, move |space, mut chain| {
            if chain.len() > 1 && is_left_out(place, space, chain[chain.len() - 1]) {
                chain.pop();
            }
            Some(chain)
        });
        expect_caught(subject, entry);
    }
}

#[test]
fn a_null_capability_at_the_end_left_out() {
    expect_caught_at_the_end(is_null);
}

#[test]
fn a_zero_word_at_the_end_left_out() {
    expect_caught_at_the_end(is_zero);
}

/// Sees that an extended list is caught which is walked by changed habits where the capability at 100h is null.
fn expect_caught_behind_100h(change: impl Fn(Habits) -> Habits) {
    let habits = change(right(EXTENDED));
    let subject = one_walked_by(EXTENDED, move |list, space, room| {
        if is_null(EXTENDED, space, 0x100) {
            habits.walk(list, space, room)
        } else {
            right_walk(list, space, room)
        }
    });
    expect_caught(subject, "walk_extended");
}

#[test]
fn a_loop_behind_a_null_capability_listed() {
    expect_caught_behind_100h(|habits| Habits {
        longer: Verdict::End,
        ..habits
    });
}

#[test]
fn a_header_that_points_to_itself_taken_for_the_last_where_100h_is_null() {
    expect_caught_behind_100h(|habits| Habits {
        memory: Memory::Last(1),
        again: Verdict::End,
        ..habits
    });
}

#[test]
fn a_pointer_back_to_a_null_capability_taken_for_an_end() {
    expect_caught_behind_100h(|habits| Habits {
        memory: Memory::First(1),
        again: Verdict::End,
        ..habits
    });
}

#[test]
fn a_pointer_below_the_floor_behind_a_null_capability_taken_for_an_end() {
    expect_caught_behind_100h(|habits| Habits {
        below: Verdict::End,
        ..habits
    });
}
