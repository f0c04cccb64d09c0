//! Wrong ways to clear the bits that are cleared by writing 1.

use second::compare::ServeCall;

use crate::clearer::{Bits, enabled, expect_caught_clearing, expect_caught_leaving, is_at_a, leaves, would_clear};
use crate::harness::{expect_not_caught, word};
use crate::serving::{code, offset};

#[test]
fn the_form_of_these_with_nothing_wrong_is_not_caught() {
    expect_not_caught(leaves(|word| word.right()));
}

#[test]
fn a_writer_that_goes_bit_by_bit_is_not_caught() {
    expect_not_caught(leaves(|word| {
        (0..32).fold(0, |left, place| {
            let bit = |of: u32| of >> place & 1 == 1;
            let new = match (bit(word.enabled), bit(word.rule), bit(word.mark)) {
                (true, true, false) => bit(word.data),
                (true, false, true) => bit(word.old) && !bit(word.data),
                _ => bit(word.old),
            };
            left | u32::from(new) << place
        })
    }));
}

#[test]
fn a_writer_that_clears_before_it_takes_is_not_caught() {
    expect_not_caught(leaves(|word| {
        let open = word.rule & word.enabled;
        word.old & !word.due() & !open | word.data & open
    }));
}

#[test]
fn marked_bits_ignored_altogether() {
    expect_caught_leaving(|word| word.taken());
}

#[test]
fn marked_bits_ignored_in_one_space() {
    expect_caught_leaving(|word| if word.trusted { word.right() } else { word.taken() });
    expect_caught_leaving(|word| if word.trusted { word.taken() } else { word.right() });
}

#[test]
fn cleared_where_the_byte_is_not_enabled() {
    expect_caught_leaving(|word| word.without(word.mark & word.data));
    expect_caught_leaving(|word| match word.enabled {
        0 => word.right(),
        _ => word.without(word.mark & word.data),
    });
    expect_caught_leaving(|word| match word.enabled {
        0 => word.without(word.mark & word.data),
        _ => word.right(),
    });
}

#[test]
fn cleared_only_where_all_bytes_are_enabled() {
    expect_caught_leaving(|word| match word.enabled {
        u32::MAX => word.right(),
        _ => word.taken(),
    });
}

#[test]
fn a_marked_bit_taken_as_writable() {
    expect_caught_leaving(|word| {
        let open = (word.rule | word.mark) & word.enabled;
        word.old & !open | word.data & open
    });
}

#[test]
fn a_marked_bit_taken_as_writable_where_data_is_0() {
    expect_caught_leaving(|word| word.without(word.mark & word.enabled));
}

#[test]
fn a_marked_bit_set_where_data_is_1() {
    expect_caught_leaving(|word| word.taken() | word.due());
}

#[test]
fn a_marked_bit_turned_round() {
    expect_caught_leaving(|word| word.taken() ^ word.due());
}

#[test]
fn a_marked_bit_cleared_by_a_0() {
    expect_caught_leaving(|word| word.without(word.mark & !word.data & word.enabled));
}

#[test]
fn each_marked_bit_of_a_word_not_cleared() {
    for bit in 0..32 {
        expect_caught_leaving(move |word| word.without(word.due() & !(1 << bit)));
    }
}

#[test]
fn a_marked_bit_that_is_0_already_set() {
    expect_caught_leaving(|word| word.right() | word.due() & !word.old);
}

/// A mask of those bytes that have a bit.
fn bytes_with(bits: u32) -> u32 {
    u32::from_le_bytes(bits.to_le_bytes().map(|byte| if byte == 0 { 0x00 } else { 0xFF }))
}

#[test]
fn all_of_a_byte_or_word_cleared_with_one_bit() {
    expect_caught_leaving(|word| word.without(bytes_with(word.due())));
    expect_caught_leaving(|word| word.without(bytes_with(word.due()) & word.mark));
    expect_caught_leaving(|word| word.without(if word.due() == 0 { 0 } else { word.mark }));
    expect_caught_leaving(|word| word.without(if word.due() == 0 { 0 } else { word.mark & word.enabled }));
}

#[test]
fn a_bit_cleared_that_is_of_neither_sort() {
    expect_caught_leaving(|word| word.right() & !(word.data & word.enabled & !word.rule));
}

#[test]
fn a_writable_bit_kept_beside_one_that_is_cleared() {
    expect_caught_leaving(|word| {
        let kept = bytes_with(word.due() & word.old);
        word.right() & !kept | word.old & !word.due() & kept
    });
}

#[test]
fn cleared_only_with_data_of_one_form() {
    expect_caught_leaving(|word| {
        let whole = word
            .data
            .to_le_bytes()
            .map(|byte| if byte == 0xFF { 0xFF } else { 0x00 });
        word.without(word.due() & u32::from_le_bytes(whole))
    });
    expect_caught_leaving(|word| match word.data {
        u32::MAX => word.right(),
        _ => word.taken(),
    });
    expect_caught_leaving(|word| match word.data & word.mark == word.mark {
        true => word.right(),
        false => word.taken(),
    });
}

#[test]
fn marks_of_the_other_space_used() {
    expect_caught_leaving(|word| word.without(word.other_mark & !word.rule & word.data & word.enabled));
    expect_caught_leaving(|word| word.without((word.mark | word.other_mark) & !word.rule & word.data & word.enabled));
    expect_caught_leaving(|word| word.without(word.mark & word.other_mark & word.data & word.enabled));
    expect_caught_leaving(|word| word.without((word.mark | word.other_mark) & word.data & word.enabled));
}

#[test]
fn marks_of_one_space_used_for_both() {
    for trusted in [false, true] {
        expect_caught_leaving(move |word| match word.trusted == trusted {
            true => word.without(word.other_mark & !word.rule & word.data & word.enabled),
            false => word.right(),
        });
    }
}

#[test]
fn marks_of_a_neighbour_used() {
    expect_caught_leaving(|word| word.without(word.next_mark & word.data & word.enabled));
    expect_caught_leaving(|word| word.without(word.last_mark & word.data & word.enabled));
    for bits in [8, 16, 24] {
        expect_caught_leaving(move |word| word.without(word.mark.rotate_left(bits) & word.data & word.enabled));
    }
    expect_caught_leaving(|word| word.without(word.mark.swap_bytes() & word.data & word.enabled));
}

#[test]
fn the_data_taken_the_other_way_round() {
    expect_caught_leaving(|word| word.without(word.mark & word.data.swap_bytes() & word.enabled));
}

/// The marked bits that a read shows, in all four bytes.
fn shown(call: &ServeCall<'_>, trusted: bool, at: usize) -> Bits {
    let marks = if trusted {
        call.trusted_marks
    } else {
        call.ordinary_marks
    };
    Bits {
        trusted,
        at,
        bits: word(marks, at),
    }
}

#[test]
fn cleared_by_a_read() {
    for (read, trusted) in [(0x04, false), (0x1B, true)] {
        expect_caught_clearing(move |call, _, done| {
            let reads = done && code(call) == read && !is_at_a(call);
            reads.then(|| shown(call, trusted, offset(call.packet)))
        });
    }
}

/// Of the bytes that it enables, or of the others.
#[test]
fn cleared_by_a_read_in_some_of_the_bytes_that_it_shows() {
    for (read, trusted) in [(0x04, false), (0x1B, true)] {
        for others in [0, u32::MAX] {
            expect_caught_clearing(move |call, _, done| {
                let reads = done && code(call) == read && !is_at_a(call);
                let shown = reads.then(|| shown(call, trusted, offset(call.packet)))?;
                let bits = shown.bits & (enabled(call.packet) ^ others);
                Some(Bits { bits, ..shown })
            });
        }
    }
}

#[test]
fn cleared_by_a_read_at_a() {
    expect_caught_clearing(|call, _, done| {
        let reads = done && code(call) == 0x04 && is_at_a(call);
        reads.then(|| shown(call, true, call.description.b as usize))
    });
    expect_caught_clearing(|call, _, done| {
        let reads = done && code(call) == 0x04 && is_at_a(call);
        reads.then(|| shown(call, false, call.description.a as usize))
    });
}

#[test]
fn an_ordinary_write_at_a_clears_what_is_stored_there() {
    expect_caught_clearing(|call, _, done| {
        let writes = done && code(call) == 0x44 && is_at_a(call);
        writes.then(|| would_clear(call))
    });
}

/// The marked bits at B that a write's data would clear.
fn at_b(call: &ServeCall<'_>) -> Bits {
    let b = call.description.b as usize;
    Bits {
        trusted: true,
        at: b,
        bits: word(call.trusted_marks, b) & word(call.packet, 12) & enabled(call.packet),
    }
}

#[test]
fn an_ordinary_write_at_a_clears_at_b() {
    expect_caught_clearing(|call, _, done| {
        let writes = done && code(call) == 0x44 && is_at_a(call);
        writes.then(|| at_b(call))
    });
}

#[test]
fn an_ordinary_write_at_the_offset_b_clears_there_in_the_trusted_space() {
    expect_caught_clearing(|call, _, done| {
        let writes = done && code(call) == 0x44 && offset(call.packet) == call.description.b as usize;
        (writes && !is_at_a(call)).then(|| at_b(call))
    });
}

/// The marked bits stored at A that a write's data would clear.
fn stored_at_a(call: &ServeCall<'_>, marks: u32) -> Bits {
    Bits {
        trusted: false,
        at: call.description.a as usize,
        bits: marks & word(call.packet, 12) & enabled(call.packet),
    }
}

#[test]
fn a_trusted_write_at_b_also_clears_what_is_stored_at_a() {
    for by_b in [false, true] {
        expect_caught_clearing(move |call, _, done| {
            let (a, b) = (call.description.a as usize, call.description.b as usize);
            let writes = done && code(call) == 0x5B && offset(call.packet) == b;
            let marks = if by_b {
                (call.trusted_marks, b)
            } else {
                (call.ordinary_marks, a)
            };
            writes.then(|| stored_at_a(call, word(marks.0, marks.1)))
        });
    }
}

#[test]
fn cleared_in_the_other_space_too() {
    expect_caught_clearing(|call, _, done| {
        let writes = done && code(call) & 0x40 != 0 && !is_at_a(call);
        writes.then(|| {
            let due = would_clear(call);
            Bits {
                trusted: !due.trusted,
                ..due
            }
        })
    });
}

#[test]
fn cleared_with_unsupported_request() {
    expect_caught_clearing(|call, served, done| {
        let unsupported = served.number == 0 && !done;
        (unsupported && code(call) & 0x40 != 0).then(|| would_clear(call))
    });
}

#[test]
fn cleared_by_a_poisoned_or_type_1_write() {
    for trusted in [false, true] {
        expect_caught_clearing(move |call, served, done| {
            let poisoned = served.number == 0 && !done && call.packet[2] & 0x40 != 0;
            let due = (poisoned && code(call) & 0x40 != 0).then(|| would_clear(call))?;
            (due.trusted == trusted).then_some(due)
        });
    }
    expect_caught_clearing(|call, served, _| (served.number == 0 && code(call) == 0x45).then(|| would_clear(call)));
}

/// A refusal of a packet that has all its bytes.
#[test]
fn cleared_with_a_refusal() {
    for number in [1, 2, 5, 6] {
        expect_caught_clearing(move |call, served, _| {
            let whole =
                call.packet.len() >= 16 && [&*call.ordinary, call.trusted].iter().all(|space| space.len() >= 4096);
            let marked = [call.ordinary_marks, call.trusted_marks]
                .iter()
                .all(|marks| marks.len() >= 4096);
            let writes = served.number == number && whole && marked && matches!(code(call), 0x44 | 0x5B);
            writes.then(|| would_clear(call))
        });
    }
}
