//! Wrong ways to tell what a completion says.

use std::cell::Cell;
use std::rc::Rc;

use thawribbon::raw::Heard;

use crate::asker::{expect_reader_caught, heard_or_else, unheard, with_heard};
use crate::harness::Wrong;

#[test]
fn one_saying_told_for_another() {
    for (said, told) in [(1, 2), (1, 3), (2, 1), (2, 3), (3, 1), (3, 2), (1, 0), (2, 0), (3, 0)] {
        expect_reader_caught(with_heard(move |heard| Heard {
            said: if heard.said == said { told } else { heard.said },
            ..heard
        }));
    }
}

#[test]
fn completer_and_requester_swapped() {
    expect_reader_caught(with_heard(|heard| Heard {
        completer: heard.requester,
        requester: heard.completer,
        ..heard
    }));
}

#[test]
fn an_id_the_other_way_round() {
    let swapped = |[high, low]: [u8; 2]| [low, high];
    expect_reader_caught(with_heard(move |heard| Heard {
        completer: swapped(heard.completer),
        ..heard
    }));
    expect_reader_caught(with_heard(move |heard| Heard {
        requester: swapped(heard.requester),
        ..heard
    }));
}

#[test]
fn data_the_other_way_round_when_heard() {
    expect_reader_caught(with_heard(|heard| {
        let [a, b, c, d] = heard.data;
        Heard {
            data: [d, c, b, a],
            ..heard
        }
    }));
}

pub fn with_the_tag_lost() -> Wrong {
    with_heard(|heard| Heard { tag: 0, ..heard })
}

#[test]
fn a_part_of_what_is_heard_lost() {
    expect_reader_caught(with_the_tag_lost());
    expect_reader_caught(with_heard(|heard| Heard {
        completer: [0; 2],
        ..heard
    }));
    expect_reader_caught(with_heard(|heard| Heard {
        requester: [0; 2],
        ..heard
    }));
    expect_reader_caught(with_heard(|heard| Heard { data: [0; 4], ..heard }));
}

#[test]
fn data_told_where_there_are_none() {
    expect_reader_caught(with_heard(|heard| Heard {
        data: if heard.said == 1 { heard.data } else { [0xFF; 4] },
        ..heard
    }));
}

/// What is read from the places of a completion, with a refusal too.
fn told_with(number: u8, tell: impl Fn(&[u8], &mut Heard) + 'static) -> Wrong {
    heard_or_else(move |completion, mut heard| {
        let told = heard.number == number && completion.len() >= 11;
        told.then(|| {
            tell(completion, &mut heard);
            heard
        })
    })
}

#[test]
fn something_told_with_a_refusal() {
    for number in 3..=6 {
        expect_reader_caught(told_with(number, |bytes, heard| heard.completer = [bytes[4], bytes[5]]));
        expect_reader_caught(told_with(number, |bytes, heard| heard.requester = [bytes[8], bytes[9]]));
        expect_reader_caught(told_with(number, |bytes, heard| heard.tag = bytes[10]));
        expect_reader_caught(told_with(number, |_, heard| heard.said = 3));
        expect_reader_caught(told_with(number, |bytes, heard| {
            heard.data = bytes.last_chunk().copied().unwrap_or_default();
        }));
    }
}

#[test]
fn every_completion_heard_as_done() {
    expect_reader_caught(heard_or_else(|_, heard| {
        (heard.number == 6).then_some(Heard {
            number: 0,
            said: 2,
            ..heard
        })
    }));
}

#[test]
fn every_completion_refused() {
    expect_reader_caught(with_heard(|_| unheard(6)));
}

/// A reader that keeps something from one completion to the next.
#[test]
fn the_last_completions_tag_told() {
    let last = Rc::new(Cell::new(0));
    expect_reader_caught(with_heard(move |heard| Heard {
        tag: last.replace(heard.tag),
        ..heard
    }));
}
