//! Wrong ways to write a request whose parts are judged right, and to treat the buffer.

use thawribbon::raw::{Parts, Written};

use crate::asker::{expect_writer_caught, or_else, refused, rehearsed, with_written};
use crate::harness::Wrong;

#[test]
fn a_read_asked_for_16_bytes() {
    expect_writer_caught(or_else(|_, buffer, written| {
        (written.number == 0 && buffer.len() < 16).then_some(refused(2))
    }));
}

#[test]
fn a_buffer_that_is_just_enough_refused() {
    expect_writer_caught(or_else(|_, buffer, written| {
        (written.number == 0 && buffer.len() == written.length).then_some(refused(2))
    }));
}

/// Writes as many bytes of a request as a buffer has that is too short, if it has so many.
fn writes_into(least: usize) -> Wrong {
    or_else(move |parts, buffer, written| {
        let room = buffer.len();
        if written.number != 2 || room < least {
            return None;
        }
        let (_, whole) = rehearsed(parts, &[0; 16]);
        buffer.copy_from_slice(&whole[..room]);
        Some(Written {
            length: room,
            number: 0,
        })
    })
}

#[test]
fn a_buffer_that_is_too_short_filled() {
    for least in [0, 11, 12, 15] {
        expect_writer_caught(writes_into(least));
    }
}

#[test]
fn the_header_written_before_the_data_find_no_room() {
    expect_writer_caught(or_else(|parts, buffer, written| {
        if written.number == 2 && buffer.len() >= 12 {
            let (_, whole) = rehearsed(parts, &[0; 16]);
            buffer[..12].copy_from_slice(&whole[..12]);
        }
        None
    }));
}

/// Changes a buffer, where it has a byte, that is refused with a number.
fn touches_refused(number: u8, change: fn(&mut [u8])) -> Wrong {
    or_else(move |_, buffer, written| {
        if written.number == number {
            change(buffer);
        }
        None
    })
}

#[test]
fn the_buffer_touched_with_a_refusal() {
    for number in [1, 2] {
        expect_writer_caught(touches_refused(number, |buffer| buffer.fill(0)));
        expect_writer_caught(touches_refused(number, |buffer| {
            if let Some(first) = buffer.first_mut() {
                *first ^= 1;
            }
        }));
    }
}

#[test]
fn the_kind_written_before_the_tests() {
    expect_writer_caught(or_else(|parts, buffer, written| {
        if let (1, [first, ..]) = (written.number, buffer) {
            *first = parts.kind;
        }
        None
    }));
}

/// Changes what lies behind a request that is written, up to so many bytes of the buffer.
fn touches_behind(end: usize, change: fn(Parts, &mut [u8])) -> Wrong {
    Wrong::write(move |parts, buffer| {
        let (written, copy) = rehearsed(parts, buffer);
        buffer.copy_from_slice(&copy);
        let end = end.min(buffer.len());
        if written.number == 0 && written.length < end {
            change(parts, &mut buffer[written.length..end]);
        }
        written
    })
}

#[test]
fn bytes_behind_the_request_touched() {
    for end in [13, 16, 17, 20, 48] {
        expect_writer_caught(touches_behind(end, |_, behind| behind.fill(0)));
    }
}

#[test]
fn a_reads_data_written_behind_it() {
    expect_writer_caught(touches_behind(16, |parts, behind| {
        let length = behind.len();
        behind.copy_from_slice(&parts.data[..length]);
    }));
}

#[test]
fn data_written_for_a_read() {
    expect_writer_caught(or_else(|parts, buffer, written| {
        if written.length != 12 || buffer.len() < 16 {
            return None;
        }
        let (_, copy) = rehearsed(parts, buffer);
        buffer.copy_from_slice(&copy);
        buffer[12..16].copy_from_slice(&parts.data);
        Some(Written { length: 16, number: 0 })
    }));
}

#[test]
fn data_of_a_read_refused() {
    expect_writer_caught(or_else(|parts, _, written| {
        (written.length == 12 && parts.data != [0; 4]).then_some(refused(1))
    }));
}

#[test]
fn another_length_told() {
    for (told, length) in [(12, 16), (16, 12), (12, 20), (16, 20), (12, 0), (16, 0)] {
        expect_writer_caught(Wrong::write(move |parts, buffer| {
            let (written, copy) = rehearsed(parts, buffer);
            buffer.copy_from_slice(&copy);
            if written.length == told {
                Written { length, ..written }
            } else {
                written
            }
        }));
    }
}

#[test]
fn a_length_told_with_a_refusal() {
    for number in [1, 2] {
        expect_writer_caught(or_else(move |_, _, written| {
            (written.number == number).then_some(Written { length: 12, number })
        }));
    }
}

#[test]
fn nothing_written() {
    expect_writer_caught(Wrong::write(|parts, buffer| rehearsed(parts, buffer).0));
}

#[test]
fn each_bit_of_a_request_turned_round() {
    for place in 0..128 {
        expect_writer_caught(with_written(move |_, request| {
            if let Some(byte) = request.get_mut(place / 8) {
                *byte ^= 1 << (place % 8);
            }
        }));
    }
}

/// A writer that loses a byte of what it writes.
fn loses(place: usize) -> Wrong {
    with_written(move |_, request| {
        if let Some(byte) = request.get_mut(place) {
            *byte = 0;
        }
    })
}

pub fn with_the_tag_lost() -> Wrong {
    loses(6)
}

#[test]
fn each_byte_of_a_request_lost() {
    for place in [0, 3, 4, 5, 6, 7, 8, 9, 10, 11, 12, 13, 14, 15] {
        expect_writer_caught(loses(place));
    }
}

#[test]
fn two_bytes_of_a_request_swapped() {
    for (one, other) in [(4, 5), (5, 6), (6, 7), (7, 8), (8, 9), (9, 10), (10, 11)] {
        expect_writer_caught(with_written(move |_, request| request.swap(one, other)));
    }
}

#[test]
fn data_the_other_way_round() {
    expect_writer_caught(with_written(|_, request| request[12..].reverse()));
}

#[test]
fn device_and_function_the_other_way_round() {
    expect_writer_caught(with_written(|parts, request| {
        request[9] = parts.function << 5 | parts.device
    }));
}

#[test]
fn enables_the_other_way_round() {
    expect_writer_caught(with_written(|parts, request| {
        request[7] = (parts.enables << 4).reverse_bits();
    }));
}

#[test]
fn a_digest_promised() {
    expect_writer_caught(with_written(|_, request| request[2] |= 0x80));
}

#[test]
fn type_1_written_for_another_bus_as_type_0() {
    expect_writer_caught(with_written(|parts, request| {
        if matches!(parts.kind, 0x05 | 0x45) && parts.bus == 0 {
            request[0] -= 1;
        }
    }));
}
