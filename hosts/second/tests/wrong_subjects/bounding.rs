//! Wrong ways to judge the parts of a request that is to be written.

use thawribbon::raw::{Parts, Written};

use crate::asker::{KINDS, expect_writer_caught, is_write, or_else, refused, with_parts};
use crate::harness::{Wrong, expect_not_caught};

/// A test for a number that is outside its range.
type Test = fn(&Parts) -> bool;

/// The tests as the request words them: kind, device, function, an offset that is over or no multiple of 4, enables.
const TESTS: [Test; 6] = [
    |parts| !KINDS.contains(&parts.kind),
    |parts| parts.device > 31,
    |parts| parts.function > 7,
    |parts| parts.offset > 0xFFC,
    |parts| parts.offset % 4 != 0,
    |parts| parts.enables > 15,
];

/// Writes by sums of three whole words, in which a number that is too high reaches into the next field, and refuses with
/// 1 where one of the tests holds.
fn written_by(tests: Vec<Test>) -> Wrong {
    Wrong::write(move |parts, buffer| {
        if tests.iter().any(|test| test(&parts)) {
            return refused(1);
        }
        let length = if is_write(&parts) { 16 } else { 12 };
        let Some(room) = buffer.get_mut(..length) else {
            return refused(2);
        };
        let [high, low] = parts.requester.map(u32::from);
        let wide = |byte: u8, place: u32| u32::from(byte) << place;
        let words = [
            wide(parts.kind, 24) + 1,
            (high << 24) + (low << 16) + wide(parts.tag, 8) + wide(parts.enables, 0),
            [wide(parts.device, 19), wide(parts.function, 16), parts.offset]
                .iter()
                .fold(wide(parts.bus, 24), |sum, &part| sum.wrapping_add(part)),
        ];
        let header = words.map(u32::to_be_bytes);
        room[..12].copy_from_slice(header.as_flattened());
        room[12..].copy_from_slice(&parts.data[..length - 12]);
        Written { length, number: 0 }
    })
}

/// All tests but that at a place, in whose stead there may be another.
fn tests_but(place: usize, other: Option<Test>) -> Vec<Test> {
    let kept = TESTS.iter().enumerate().filter(|(at, _)| *at != place);
    kept.map(|(_, &test)| test).chain(other).collect()
}

fn expect_caught_without(place: usize) {
    expect_writer_caught(written_by(tests_but(place, None)));
}

fn expect_caught_with(place: usize, tests: &[Test]) {
    for &test in tests {
        expect_writer_caught(written_by(tests_but(place, Some(test))));
    }
}

#[test]
fn requests_written_by_whole_words_are_not_caught() {
    expect_not_caught(written_by(TESTS.to_vec()));
}

#[test]
fn a_kind_outside_the_six_let_through() {
    expect_caught_without(0);
}

#[test]
fn bit_7_of_the_kind_ignored() {
    expect_caught_with(0, &[|parts| !KINDS.contains(&(parts.kind & 0x7F))]);
    expect_writer_caught(with_parts(|parts| Parts {
        kind: parts.kind & 0x7F,
        ..parts
    }));
}

#[test]
fn one_kind_more_let_through() {
    expect_caught_with(
        0,
        &[
            |parts| parts.kind != 0x00 && !KINDS.contains(&parts.kind),
            |parts| parts.kind != 0x06 && !KINDS.contains(&parts.kind),
            |parts| parts.kind != 0x1A && !KINDS.contains(&parts.kind),
            |parts| parts.kind != 0x4A && !KINDS.contains(&parts.kind),
            |parts| parts.kind != 0xC4 && !KINDS.contains(&parts.kind),
            |parts| parts.kind != 0xFF && !KINDS.contains(&parts.kind),
        ],
    );
}

#[test]
fn one_of_the_six_kinds_refused() {
    for kind in KINDS {
        expect_writer_caught(or_else(move |parts, _, written| {
            (parts.kind == kind && written.number == 0).then_some(refused(1))
        }));
    }
}

#[test]
fn a_kind_outside_the_six_refused_with_4() {
    expect_writer_caught(or_else(|parts, _, _| {
        (!KINDS.contains(&parts.kind)).then_some(refused(4))
    }));
}

#[test]
fn a_device_over_31_spilling_into_the_bus() {
    expect_caught_without(1);
}

#[test]
fn a_function_over_7_spilling_into_the_device() {
    expect_caught_without(2);
}

#[test]
fn an_offset_over_ffch_spilling_into_the_function() {
    expect_caught_without(3);
}

#[test]
fn an_offset_that_is_no_multiple_of_4_let_through() {
    expect_caught_without(4);
}

#[test]
fn enables_over_15_spilling_into_the_last_enables() {
    expect_caught_without(5);
}

#[test]
fn a_bound_that_is_one_too_high() {
    expect_caught_with(1, &[|parts| parts.device > 32]);
    expect_caught_with(2, &[|parts| parts.function > 8]);
    expect_caught_with(3, &[|parts| parts.offset > 0x1000]);
    expect_caught_with(5, &[|parts| parts.enables > 16]);
}

#[test]
fn a_bound_that_is_one_too_low() {
    expect_caught_with(1, &[|parts| parts.device > 30]);
    expect_caught_with(2, &[|parts| parts.function > 6]);
    expect_caught_with(3, &[|parts| parts.offset > 0xFF8]);
    expect_caught_with(5, &[|parts| parts.enables > 14]);
}

#[test]
fn a_number_compared_as_a_signed_one() {
    expect_caught_with(1, &[|parts| parts.device as i8 > 31]);
    expect_caught_with(2, &[|parts| parts.function as i8 > 7]);
    expect_caught_with(3, &[|parts| parts.offset as i32 > 0xFFC]);
    expect_caught_with(5, &[|parts| parts.enables as i8 > 15]);
}

#[test]
fn an_offset_tested_in_its_low_bits_only() {
    expect_caught_with(3, &[|parts| parts.offset as u16 > 0xFFC]);
    expect_caught_with(4, &[|parts| parts.offset % 2 != 0, |parts| parts.offset % 4 == 2]);
}

#[test]
fn an_offset_dropped_to_a_multiple_of_4() {
    expect_writer_caught(with_parts(|parts| Parts {
        offset: parts.offset & !3,
        ..parts
    }));
}

#[test]
fn a_number_cut_to_its_field() {
    expect_writer_caught(with_parts(|parts| Parts {
        offset: parts.offset & 0xFFF,
        ..parts
    }));
    expect_writer_caught(with_parts(|parts| Parts {
        device: parts.device & 0x1F,
        ..parts
    }));
    expect_writer_caught(with_parts(|parts| Parts {
        function: parts.function & 0x07,
        ..parts
    }));
    expect_writer_caught(with_parts(|parts| Parts {
        enables: parts.enables & 0x0F,
        ..parts
    }));
}

#[test]
fn a_read_held_to_have_no_enables() {
    expect_writer_caught(with_parts(|parts| Parts {
        enables: if is_write(&parts) { parts.enables } else { 0x0F },
        ..parts
    }));
}

#[test]
fn no_byte_enabled_refused() {
    expect_writer_caught(or_else(|parts, _, written| {
        (written.number == 0 && parts.enables == 0).then_some(refused(1))
    }));
}

/// Whether a buffer is too short for a request of a kind, or of any kind where this is none.
fn is_short(parts: &Parts, buffer: &[u8]) -> bool {
    buffer.len()
        < if KINDS.contains(&parts.kind) && is_write(parts) {
            16
        } else {
            12
        }
}

#[test]
fn the_buffer_tested_before_the_parts() {
    expect_writer_caught(or_else(|parts, buffer, _| {
        is_short(&parts, buffer).then_some(refused(2))
    }));
    for test in TESTS {
        expect_writer_caught(or_else(move |parts, buffer, _| {
            (test(&parts) && is_short(&parts, buffer)).then_some(refused(2))
        }));
    }
}
