//! Wrong ways to judge the bytes of a completion behind the first.

use second::compare::{Reference, Subject};
use thawribbon::raw::Heard;

use crate::asker::{expect_reader_caught, heard_or_else, unheard};
use crate::harness::{Wrong, expect_not_caught};

/// Of each of the twelve bytes of every reply, the bits that are looked at.
pub type Mask = [u8; 12];

/// What a reply with data has where it is not free.
pub const WITH_DATA: [u8; 12] = [0x4A, 0, 0, 1, 0, 0, 0x00, 4, 0, 0, 0, 0];
/// What a reply without data has there, but for the status.
pub const WITHOUT_DATA: [u8; 12] = [0x0A, 0, 0, 0, 0, 0, 0x00, 4, 0, 0, 0, 0];
/// The bits that are not free, for either: the status of a reply without data has one that is.
pub const MASKS: [Mask; 2] = [
    [0xFF, 0xFF, 0xFF, 0xFF, 0, 0, 0xDF, 0xFF, 0, 0, 0, 0xFF],
    [0xFF, 0xFF, 0xFF, 0xFF, 0, 0, 0xFF, 0xFF, 0, 0, 0, 0xFF],
];

/// Reads by masks: one for replies without data and one for those with.
fn read_by(masks: [Mask; 2]) -> Wrong {
    Wrong::read(move |completion| {
        let Some((header, data)) = completion.split_first_chunk::<12>() else {
            return unheard(3);
        };
        let (due, mask) = match header[0] {
            0x0A => (WITHOUT_DATA, masks[0]),
            0x4A => (WITH_DATA, masks[1]),
            _ => return unheard(4),
        };
        let has_data = header[0] == 0x4A;
        if data.len() != 4 * usize::from(has_data) {
            return unheard(5);
        }
        if (0..12).any(|place| (header[place] ^ due[place]) & mask[place] != 0) {
            return unheard(6);
        }
        let said = match (has_data, header[6]) {
            (true, _) => 1,
            (false, 0x00) => 2,
            (false, _) => 3,
        };
        Heard {
            number: 0,
            said,
            completer: [header[4], header[5]],
            requester: [header[8], header[9]],
            tag: header[10],
            data: data.try_into().unwrap_or_default(),
        }
    })
}

/// The masks with some bits of a byte left out, of replies without data or with.
fn masks_but(form: usize, place: usize, bits: u8) -> [Mask; 2] {
    let mut masks = MASKS;
    masks[form][place] &= !bits;
    masks
}

#[test]
fn completions_read_by_masks_are_not_caught() {
    expect_not_caught(read_by(MASKS));
}

#[test]
fn a_fixed_byte_unchecked_in_a_reply_without_data() {
    for place in [1, 2, 3, 6, 7, 11] {
        expect_reader_caught(read_by(masks_but(0, place, 0xFF)));
    }
}

#[test]
fn a_fixed_byte_unchecked_in_a_reply_with_data() {
    for place in [1, 2, 3, 6, 7, 11] {
        expect_reader_caught(read_by(masks_but(1, place, 0xFF)));
    }
}

#[test]
fn one_bit_of_a_fixed_byte_unchecked() {
    for form in [0, 1] {
        for place in [1, 2, 3, 6, 7, 11] {
            for bit in (0..8).filter(|bit| MASKS[form][place] >> bit & 1 == 1) {
                expect_reader_caught(read_by(masks_but(form, place, 1 << bit)));
            }
        }
    }
}

#[test]
fn a_free_byte_held_to_be_fixed() {
    for form in [0, 1] {
        for place in [4, 5, 8, 9, 10] {
            let mut masks = MASKS;
            masks[form][place] = 0x80;
            expect_reader_caught(read_by(masks));
        }
    }
}

/// A completion of the right length with another status, by what it would be with a status of 0.
fn with_status_0(completion: &[u8], heard: Heard) -> Option<Heard> {
    if heard.number != 6 {
        return None;
    }
    let mut other = completion.to_vec();
    other[6] = 0x00;
    let heard = Reference.read_completion(&other);
    (heard.number == 0).then_some(heard)
}

#[test]
fn any_status_taken_for_success() {
    expect_reader_caught(heard_or_else(with_status_0));
}

#[test]
fn any_other_status_taken_for_ur() {
    expect_reader_caught(heard_or_else(|completion, heard| {
        let heard = with_status_0(completion, heard)?;
        (heard.said == 2).then_some(Heard { said: 3, ..heard })
    }));
}

#[test]
fn one_other_status_taken_for_ur() {
    for status in [0x01, 0x02, 0x21, 0x40, 0x80, 0xA0] {
        expect_reader_caught(heard_or_else(move |completion, heard| {
            let taken = completion.get(6) == Some(&status);
            let heard = with_status_0(completion, heard).filter(|heard| taken && heard.said == 2)?;
            Some(Heard { said: 3, ..heard })
        }));
    }
}

#[test]
fn ur_with_data_accepted() {
    let with_20h = |completion: &[u8], heard| {
        let taken = completion.get(6) == Some(&0x20);
        with_status_0(completion, heard).filter(|heard| taken && heard.said == 1)
    };
    expect_reader_caught(heard_or_else(with_20h));
    expect_reader_caught(heard_or_else(move |completion, heard| {
        let heard = with_20h(completion, heard)?;
        Some(Heard {
            said: 3,
            data: [0; 4],
            ..heard
        })
    }));
}

#[test]
fn ur_refused() {
    expect_reader_caught(heard_or_else(|_, heard| (heard.said == 3).then_some(unheard(6))));
}
