//! Wrong first bytes and lengths of completions let through, and wrong orders of the tests.

use second::compare::{Reference, Subject};

use crate::asker::{expect_reader_caught, heard_or_else, unheard, with_completion};
use crate::hearing::{MASKS, Mask, WITH_DATA, WITHOUT_DATA};

/// Whether a byte behind the first is one that no reply has there: after this first byte, or after either of the two.
fn has_wrong_byte(completion: &[u8]) -> bool {
    let is_wrong = |due: [u8; 12], mask: Mask| {
        let bytes = completion.iter().zip(due).zip(mask);
        bytes.skip(1).any(|((byte, due), mask)| (byte ^ due) & mask != 0)
    };
    let (without, with) = (is_wrong(WITHOUT_DATA, MASKS[0]), is_wrong(WITH_DATA, MASKS[1]));
    match completion.first() {
        Some(0x0A) => without,
        Some(0x4A) => with,
        _ => without && with,
    }
}

/// Whether a completion has a cause of a number by itself: 4, 5 or 6.
fn has_cause(completion: &[u8], number: u8) -> bool {
    match (number, completion.first()) {
        (_, None) => false,
        (4, first) => !matches!(first, Some(0x4A | 0x0A)),
        (5, Some(0x4A)) => completion.len() != 16,
        (5, Some(0x0A)) => completion.len() != 12,
        (5, _) => false,
        _ => has_wrong_byte(completion),
    }
}

/// A later number told where an earlier one is due.
fn expect_caught_telling(later: u8, earlier: u8) {
    expect_reader_caught(heard_or_else(move |completion, heard| {
        (heard.number == earlier && has_cause(completion, later)).then_some(unheard(later))
    }));
}

#[test]
fn the_first_byte_tested_before_12_bytes_are_there() {
    expect_caught_telling(4, 3);
}

#[test]
fn the_length_tested_before_12_bytes_are_there() {
    expect_caught_telling(5, 3);
}

#[test]
fn the_fixed_bytes_tested_before_12_bytes_are_there() {
    expect_caught_telling(6, 3);
}

#[test]
fn the_fixed_bytes_tested_before_the_first() {
    expect_caught_telling(6, 4);
}

#[test]
fn the_fixed_bytes_tested_before_the_length() {
    expect_caught_telling(6, 5);
}

#[test]
fn the_length_tested_before_the_first_byte() {
    expect_reader_caught(heard_or_else(|completion, heard| {
        (heard.number == 4 && !matches!(completion.len(), 12 | 16)).then_some(unheard(5))
    }));
}

#[test]
fn an_empty_completion_given_another_number() {
    for number in [0, 4, 5] {
        expect_reader_caught(heard_or_else(move |completion, _| {
            completion.is_empty().then_some(unheard(number))
        }));
    }
}

#[test]
fn bytes_behind_a_completion_ignored() {
    expect_reader_caught(with_completion(|completion| match completion.first() {
        Some(0x0A) => completion.truncate(12),
        Some(0x4A) => completion.truncate(16),
        _ => {}
    }));
    expect_reader_caught(with_completion(|completion| completion.truncate(16)));
}

#[test]
fn a_short_completion_filled_up() {
    expect_reader_caught(with_completion(|completion| match completion.first() {
        Some(0x4A) if completion.len() >= 12 => completion.resize(16, 0),
        _ => {}
    }));
    expect_reader_caught(with_completion(|completion| {
        if completion.len() == 11 {
            completion.push(0);
        }
    }));
}

#[test]
fn a_reply_with_data_of_12_bytes_accepted() {
    expect_reader_caught(heard_or_else(|completion, heard| {
        let taken = heard.number == 5 && completion.len() == 12;
        let mut other = completion.to_vec();
        other.resize(16, 0);
        taken.then(|| Reference.read_completion(&other))
    }));
}

#[test]
fn a_reply_without_data_of_16_bytes_accepted() {
    expect_reader_caught(heard_or_else(|completion, heard| {
        let taken = heard.number == 5 && completion.len() == 16;
        taken.then(|| Reference.read_completion(&completion[..12]))
    }));
}

#[test]
fn the_form_told_by_the_length() {
    expect_reader_caught(with_completion(|completion| match completion.len() {
        12 if completion[0] == 0x4A => completion[0] = 0x0A,
        16 if completion[0] == 0x0A => completion[0] = 0x4A,
        _ => {}
    }));
}

/// Bit 6 is the one in which the two first bytes differ.
#[test]
fn a_bit_of_the_first_byte_ignored() {
    for bit in [0, 1, 2, 3, 4, 5, 7] {
        expect_reader_caught(heard_or_else(move |completion, heard| {
            let mut other = completion.to_vec();
            *other.first_mut()? ^= 1 << bit;
            (heard.number == 4).then(|| Reference.read_completion(&other))
        }));
    }
}
