//! Wrong ways to return a read's word. Since request 7/13 "every successful read returns all four bytes whatever the
//! enables, also at A".

use second::compare::{Reference, ServeCall, Subject, meaning};
use thawribbon::raw::Served;

use crate::harness::{Wrong, expect_caught, expect_not_caught};
use crate::returner::{PLACES, Place, Read, expect_caught_returning, expect_caught_with_00h, returns};
use crate::serving::{again, code, short_completion, succeeds, with_packet};

#[test]
fn the_form_of_these_with_nothing_wrong_is_not_caught() {
    expect_not_caught(returns(|read| read.due));
}

#[test]
fn a_reader_that_goes_byte_by_byte_is_not_caught() {
    expect_not_caught(returns(|read| {
        let mut data = read.lent;
        for enabled in [true, false] {
            for byte in (0..4).filter(|&byte| read.is_enabled(byte) == enabled) {
                data[byte] = read.due[byte];
            }
        }
        data
    }));
}

#[test]
fn a_reader_that_shifts_the_whole_word_is_not_caught() {
    expect_not_caught(returns(|read| {
        let word = u32::from_le_bytes(read.due);
        [0, 8, 16, 24].map(|place| (word >> place) as u8)
    }));
}

#[test]
fn a_read_served_with_other_enables_is_not_caught() {
    let others: [fn(u8) -> u8; 3] = [|_| 0x0F, |_| 0x00, |enables| enables ^ 0x0F];
    for other in others {
        expect_not_caught(Wrong::serve(move |mut call| {
            if succeeds(&mut call) && code(&call) & 0x40 == 0 {
                with_packet(&mut call, |packet| packet[7] = other(packet[7]))
            } else {
                Reference.serve(call)
            }
        }));
    }
}

#[test]
fn bytes_not_enabled_as_00h() {
    expect_caught_with_00h(|_| true);
}

#[test]
fn bytes_not_enabled_as_00h_in_the_ordinary_space_only() {
    expect_caught_with_00h(|read| read.place == Place::Ordinary);
}

#[test]
fn bytes_not_enabled_as_00h_in_the_trusted_space_only() {
    expect_caught_with_00h(|read| read.place == Place::Trusted);
}

#[test]
fn bytes_not_enabled_as_00h_at_a_only() {
    expect_caught_with_00h(|read| read.place == Place::AtA);
}

#[test]
fn one_of_the_four_bytes_as_00h_where_it_is_not_enabled() {
    for place in PLACES {
        for byte in 0..4 {
            expect_caught_returning(move |read| {
                let is_due = |one| read.place != place || one != byte || read.is_enabled(one);
                read.where_due(is_due, [0x00; 4])
            });
        }
    }
}

#[test]
fn each_bit_of_the_bytes_not_enabled_as_0() {
    for bit in 0..32 {
        expect_caught_returning(move |read| {
            let without = u32::from_le_bytes(read.due) & !(1 << bit);
            read.with_others(without.to_le_bytes())
        });
    }
}

#[test]
fn all_bytes_as_00h_where_none_is_enabled() {
    for place in PLACES {
        expect_caught_with_00h(move |read| read.place == place && read.enables == 0);
    }
}

#[test]
fn bytes_not_enabled_as_00h_unless_none_is_enabled() {
    for place in PLACES {
        expect_caught_with_00h(move |read| read.place == place && read.enables != 0);
    }
}

/// The fifteen patterns of enables that leave a byte out, at each place.
#[test]
fn bytes_not_enabled_as_00h_for_one_pattern_of_enables() {
    for place in PLACES {
        for enables in 0..15 {
            expect_caught_with_00h(move |read| read.place == place && read.enables == enables);
        }
    }
}

#[test]
fn bytes_not_enabled_as_00h_in_a_poisoned_read() {
    for place in PLACES {
        expect_caught_with_00h(move |read| read.place == place && read.third & 0x40 != 0);
    }
}

#[test]
fn bytes_not_enabled_as_00h_in_a_read_with_a_digest_or_bit_7() {
    for place in PLACES {
        expect_caught_with_00h(move |read| read.place == place && read.third & 0x80 != 0);
        expect_caught_with_00h(move |read| read.place == place && read.first & 0x80 != 0);
    }
}

#[test]
fn bytes_not_enabled_as_ffh() {
    for place in PLACES {
        expect_caught_returning(move |read| match read.place == place {
            true => read.with_others([0xFF; 4]),
            false => read.due,
        });
    }
}

#[test]
fn bytes_not_enabled_left_as_the_reply_was_lent() {
    expect_caught_returning(|read| read.with_others(read.lent));
    expect_caught_returning(|read| match read.enables {
        0x00 => read.lent,
        _ => read.due,
    });
}

#[test]
fn bytes_not_enabled_of_the_last_read() {
    let mut last = None;
    expect_caught_returning(move |read| {
        let data = read.with_others(last.unwrap_or(read.due));
        last = Some(read.due);
        data
    });
}

#[test]
fn bytes_not_enabled_of_the_other_space() {
    for place in [Place::Ordinary, Place::Trusted] {
        expect_caught_returning(move |read| match read.place == place {
            true => read.with_others(read.other),
            false => read.due,
        });
    }
}

#[test]
fn bytes_stored_at_a_where_not_enabled() {
    expect_caught_returning(|read| match read.place {
        Place::AtA => read.with_others(read.other),
        _ => read.due,
    });
}

#[test]
fn bytes_stored_at_a_where_enabled() {
    expect_caught_returning(|read| match read.place {
        Place::AtA => read.where_due(|byte| !read.is_enabled(byte), read.other),
        _ => read.due,
    });
}

#[test]
fn bytes_not_enabled_without_their_marked_bits() {
    expect_caught_returning(|read| read.with_others([0, 1, 2, 3].map(|byte| read.due[byte] & !read.marks[byte])));
}

#[test]
fn rotated_to_the_first_enabled_byte() {
    expect_caught_returning(|read| {
        let mut data = read.due;
        data.rotate_left(read.first_enabled());
        data
    });
}

#[test]
fn shifted_to_the_first_enabled_byte() {
    expect_caught_returning(|read| {
        let shifted = u32::from_le_bytes(read.due) >> (8 * read.first_enabled());
        shifted.to_le_bytes()
    });
}

#[test]
fn four_bytes_from_the_first_enabled_one_on() {
    expect_caught_returning(|read| {
        let bytes = [read.due, read.next];
        let bytes = bytes.as_flattened();
        [0, 1, 2, 3].map(|byte| bytes[read.first_enabled() + byte])
    });
}

/// The enabled bytes, and behind them others, of which there are enough.
fn packed(read: &Read, others: impl Iterator<Item = u8>) -> [u8; 4] {
    let enabled = (0..4).filter(|&byte| read.is_enabled(byte)).map(|byte| read.due[byte]);
    let mut bytes = enabled.chain(others);
    [(); 4].map(|()| bytes.next().unwrap_or(0x00))
}

#[test]
fn enabled_bytes_moved_to_the_front() {
    expect_caught_returning(|read| packed(read, std::iter::empty()));
    expect_caught_returning(|read| {
        let others = (0..4).filter(|&byte| !read.is_enabled(byte)).map(|byte| read.due[byte]);
        packed(read, others)
    });
}

#[test]
fn an_enabled_byte_repeated_in_the_place_of_others() {
    expect_caught_returning(|read| read.with_others([read.due[read.first_enabled()]; 4]));
    expect_caught_returning(|read| match read.enables.count_ones() {
        1 => [read.due[read.first_enabled()]; 4],
        _ => read.due,
    });
}

#[test]
fn the_word_the_other_way_round_where_a_byte_is_not_enabled() {
    expect_caught_returning(|read| match read.enables {
        0x0F => read.due,
        _ => u32::from_le_bytes(read.due).to_be_bytes(),
    });
}

/// "Two host drivers read a byte and look at its neighbours": but all four bytes are due.
#[test]
fn only_the_neighbours_of_enabled_bytes() {
    expect_caught_returning(|read| {
        let near = |byte: usize| (0..4).any(|other| read.is_enabled(other) && byte.abs_diff(other) <= 1);
        read.where_due(near, [0x00; 4])
    });
}

#[test]
fn only_the_half_of_the_word_with_an_enabled_byte() {
    expect_caught_returning(|read| {
        let half = |byte: usize| (0..4).any(|other| read.is_enabled(other) && byte / 2 == other / 2);
        read.where_due(half, [0x00; 4])
    });
}

#[test]
fn only_the_bytes_from_the_first_enabled_one_to_the_last() {
    expect_caught_returning(|read| {
        let from_to = |byte: usize| read.enables >> byte != 0 && byte >= read.first_enabled();
        read.where_due(from_to, [0x00; 4])
    });
}

/// Serves where a successful read with no byte enabled gets another answer.
fn with_none_enabled(other: impl Fn(&mut ServeCall<'_>) -> Served + 'static) -> Wrong {
    Wrong::serve(move |mut call| {
        if succeeds(&mut call) && code(&call) & 0x40 == 0 && call.packet[7] == 0 {
            other(&mut call)
        } else {
            Reference.serve(call)
        }
    })
}

#[test]
fn no_data_with_no_byte_enabled() {
    let without_data = |call: &mut ServeCall<'_>| {
        let kept = meaning(call.kept);
        short_completion(call, kept, 0x00)
    };
    expect_caught(with_none_enabled(without_data), "serve");
}

#[test]
fn ur_with_no_byte_enabled() {
    let unsupported = |call: &mut ServeCall<'_>| {
        let kept = meaning(call.kept);
        short_completion(call, kept, 0x20)
    };
    expect_caught(with_none_enabled(unsupported), "serve");
}

#[test]
fn a_refusal_with_no_byte_enabled() {
    let refused = |call: &mut ServeCall<'_>| Served {
        number: 6,
        length: 0,
        capture: call.kept,
    };
    expect_caught(with_none_enabled(refused), "serve");
}

#[test]
fn fewer_data_bytes_where_a_byte_is_not_enabled() {
    let fewer = |mut call: ServeCall<'_>| {
        let reads = succeeds(&mut call) && code(&call) & 0x40 == 0;
        let served = Reference.serve(again(&mut call));
        let enabled = call.packet.get(7).map_or(0, |byte| byte.count_ones() as usize);
        if reads {
            Served {
                length: 12 + enabled,
                ..served
            }
        } else {
            served
        }
    };
    expect_caught(Wrong::serve(fewer), "serve");
}
