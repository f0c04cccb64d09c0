//! Wrong ways to read the two records.

use second::compare::{Reference, Subject};
use thawribbon::raw::{Alternate, Dvsec, Part};

use crate::harness::{Wrong, expect_caught};

/// The body as the model tells it, with a change where it is not refused.
fn changed_body(change: impl Fn(Part) -> Part + 'static) -> Wrong {
    Wrong::body(move |space, at| {
        let part = Reference.dvsec_body(space, at);
        if Reference.dvsec(space, at).number == 0 {
            change(part)
        } else {
            part
        }
    })
}

/// The DVSEC record as the model tells it from a space with a few bytes changed.
fn dvsec_from_changed(change: impl Fn(&mut [u8], usize) + 'static) -> Wrong {
    Wrong::dvsec(move |space, at| {
        let mut copy = space.to_vec();
        if space.len() == 4096 && at <= 0xFFC {
            change(&mut copy, at);
        }
        Reference.dvsec(&copy, at)
    })
}

/// The Dual-BDF record as the model tells it from a space with a few bytes changed.
fn dual_from_changed(change: impl Fn(&mut [u8], usize) + 'static) -> Wrong {
    Wrong::dual(move |space, at| {
        let mut copy = space.to_vec();
        if space.len() == 4096 && at <= 0x100 {
            change(&mut copy, at);
        }
        Reference.dual_bdf(&copy, at)
    })
}

#[test]
fn dvsec_length_taken_as_the_bodys() {
    expect_caught(
        changed_body(|part| Part {
            length: part.length + 0x0A,
            ..part
        }),
        "dvsec_body",
    );
}

#[test]
fn body_starting_at_0c() {
    let wrong = changed_body(|part| Part {
        start: part.start + 2,
        length: part.length.saturating_sub(2),
    });
    expect_caught(wrong, "dvsec_body");
}

#[test]
fn an_empty_body_told_like_a_refusal() {
    expect_caught(
        changed_body(|part| if part.length == 0 { Part::default() } else { part }),
        "dvsec_body",
    );
}

#[test]
fn offset_taken_by_its_low_32_bits() {
    expect_caught(
        Wrong::dvsec(|space, at| Reference.dvsec(space, at & 0xFFFF_FFFF)),
        "dvsec",
    );
    expect_caught(
        Wrong::body(|space, at| Reference.dvsec_body(space, at & 0xFFFF_FFFF)),
        "dvsec_body",
    );
    expect_caught(
        Wrong::dual(|space, at| Reference.dual_bdf(space, at & 0xFFFF_FFFF)),
        "dual_bdf",
    );
}

#[test]
fn offset_rounded_down() {
    expect_caught(Wrong::dvsec(|space, at| Reference.dvsec(space, at & !3)), "dvsec");
    expect_caught(Wrong::dual(|space, at| Reference.dual_bdf(space, at & !3)), "dual_bdf");
}

#[test]
fn version_not_tested() {
    let untested = dvsec_from_changed(|space, at| space[at + 2] = space[at + 2] & 0xF0 | 1);
    expect_caught(untested, "dvsec");
}

#[test]
fn dvsec_id_tested_by_one_of_its_bytes() {
    expect_caught(dvsec_from_changed(|space, at| space[at] = 0x23), "dvsec");
    expect_caught(dvsec_from_changed(|space, at| space[at + 1] = 0x00), "dvsec");
}

#[test]
fn a_dvsec_length_below_0a_taken() {
    let taken = dvsec_from_changed(|space, at| {
        let short = at <= 0xFF4 && space[at + 7] == 0 && space[at + 6] < 0xA0;
        if short {
            space[at + 6] = space[at + 6] & 0x0F | 0xA0;
        }
    });
    expect_caught(taken, "dvsec");
}

#[test]
fn revision_with_bits_of_the_length() {
    let trailing = |space: &[u8], at: usize| {
        let record = Reference.dvsec(space, at);
        let revision = if record.number == 0 { space[at + 6] } else { 0 };
        Dvsec { revision, ..record }
    };
    expect_caught(Wrong::dvsec(trailing), "dvsec");
}

#[test]
fn last_offsets_refused_as_out_of_range() {
    let refused = |space: &[u8], at: usize| {
        let record = Reference.dvsec(space, at);
        if record.number == 9 && at >= 0xFF8 {
            Dvsec { number: 1, ..record }
        } else {
            record
        }
    };
    expect_caught(Wrong::dvsec(refused), "dvsec");
}

#[test]
fn a_length_that_ends_at_1000h_refused() {
    let refused = |space: &[u8], at: usize| {
        let record = Reference.dvsec(space, at);
        let to_the_end = record.number == 0 && at + usize::from(record.length) == 0x1000;
        if to_the_end {
            Dvsec {
                number: 9,
                ..Dvsec::default()
            }
        } else {
            record
        }
    };
    expect_caught(Wrong::dvsec(refused), "dvsec");
}

#[test]
fn fields_told_with_a_refusal() {
    let told = |space: &[u8], at: usize| {
        let record = Reference.dvsec(space, at);
        if record.number == 9 {
            Dvsec { id: 0x23, ..record }
        } else {
            record
        }
    };
    expect_caught(Wrong::dvsec(told), "dvsec");
}

#[test]
fn dual_device_with_trailing_bits() {
    let trailing = |space: &[u8], at: usize| {
        let record = Reference.dual_bdf(space, at);
        let device = if record.number == 0 { space[at + 11] } else { 0 };
        Alternate { device, ..record }
    };
    expect_caught(Wrong::dual(trailing), "dual_bdf");
}

#[test]
fn vector_taken_as_the_function() {
    let taken = |space: &[u8], at: usize| {
        let record = Reference.dual_bdf(space, at);
        let function = if record.number == 0 { space[at + 10] } else { 0 };
        Alternate { function, ..record }
    };
    expect_caught(Wrong::dual(taken), "dual_bdf");
}

#[test]
fn lowest_bit_of_any_vector_taken() {
    let lowest = dual_from_changed(|space, at| {
        let vector = space[at + 10];
        space[at + 10] = vector & vector.wrapping_neg();
    });
    expect_caught(lowest, "dual_bdf");
}

#[test]
fn either_id_taken_with_either_vendor() {
    let mixed = dual_from_changed(|space, at| {
        let intel = space[at + 4..at + 6] == [0x86, 0x80];
        let either = [[9, 0], [2, 0]].contains(&[space[at + 8], space[at + 9]]);
        if either {
            space[at + 8] = if intel { 9 } else { 2 };
        }
    });
    expect_caught(mixed, "dual_bdf");
}

#[test]
fn capability_length_not_tested() {
    expect_caught(dual_from_changed(|space, at| space[at + 2] = 0x0C), "dual_bdf");
}

#[test]
fn byte_0_of_a_dual_bdf_record_not_tested() {
    expect_caught(dual_from_changed(|space, at| space[at] = 0x09), "dual_bdf");
}

#[test]
fn dvsec_length_of_a_dual_bdf_record_tested_by_one_part() {
    expect_caught(dual_from_changed(|space, at| space[at + 7] = 0x00), "dual_bdf");
    let low_part = |space: &mut [u8], at| space[at + 6] = space[at + 6] & 0x0F | 0xC0;
    expect_caught(dual_from_changed(low_part), "dual_bdf");
}

#[test]
fn revision_of_a_dual_bdf_record_not_tested() {
    expect_caught(dual_from_changed(|space, at| space[at + 6] &= 0xF0), "dual_bdf");
}

/// The vendor is taken for one of the two where one of its bytes is right.
#[test]
fn vendor_tested_by_one_of_its_bytes() {
    for tested in [4, 5] {
        let partly = dual_from_changed(move |space, at| {
            for vendor in [[0x86, 0x80], [0xC0, 0x1E]] {
                if space[at + tested] == vendor[tested - 4] {
                    space[at + 4..at + 6].copy_from_slice(&vendor);
                }
            }
        });
        expect_caught(partly, "dual_bdf");
    }
}

#[test]
fn id_of_a_dual_bdf_record_tested_by_one_of_its_bytes() {
    expect_caught(dual_from_changed(|space, at| space[at + 9] = 0x00), "dual_bdf");
    let by_high_byte = |space: &mut [u8], at| space[at + 8] = if space[at + 4] == 0x86 { 0x09 } else { 0x02 };
    expect_caught(dual_from_changed(by_high_byte), "dual_bdf");
}

#[test]
fn vendor_tested_before_the_lengths() {
    let before = |space: &[u8], at: usize| {
        let record = Reference.dual_bdf(space, at);
        let vendor_unknown =
            record.number == 9 && ![[0x86, 0x80], [0xC0, 0x1E]].contains(&[space[at + 4], space[at + 5]]);
        if vendor_unknown {
            Alternate { number: 8, ..record }
        } else {
            record
        }
    };
    expect_caught(Wrong::dual(before), "dual_bdf");
}

#[test]
fn a_record_that_runs_over_100h_taken() {
    let taken = |space: &[u8], at: usize| {
        if space.len() != 4096 || !(0x0F8..=0x0FC).contains(&at) {
            return Reference.dual_bdf(space, at);
        }
        let mut copy = vec![0; 4096];
        copy[0x040..0x04C].copy_from_slice(&space[at..at + 12]);
        Reference.dual_bdf(&copy, 0x040 + at % 4)
    };
    expect_caught(Wrong::dual(taken), "dual_bdf");
}
