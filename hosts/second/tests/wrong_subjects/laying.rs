//! Ways to write the headers of a layout, by request 10/13: right ones, and such as some space shows to be wrong.

use second::compare::{Reference, Subject};
use thawribbon::raw::Structure;

use crate::harness::{Wrong, expect_caught, expect_not_caught, word};
use crate::surveyor::{RIGHT, are_bad, header, put, write_headers};

/// Writes each header by another word: from the structures, the offsets, a place, and the word that was there.
fn by_words(header_at: impl Fn(&[Structure], &[u16], usize, u32) -> u32 + 'static) -> Wrong {
    Wrong::lay(move |structures, offsets, space| {
        let before = space.to_vec();
        let number = Reference.write_layout(structures, offsets, space);
        if number == 0 {
            for (place, &offset) in offsets.iter().enumerate() {
                let old = word(&before, offset.into());
                put(space, offset.into(), header_at(structures, offsets, place, old));
            }
        }
        number
    })
}

fn expect_words_caught(header_at: impl Fn(&[Structure], &[u16], usize, u32) -> u32 + 'static) {
    expect_write_caught(by_words(header_at));
}

/// The model's writer, which also does something to the space after its number, or before it.
fn expect_caught_after(number: u8, change: impl Fn(&[Structure], &[u16], &mut [u8]) + 'static) {
    expect_write_caught(Wrong::lay(move |structures, offsets, space| {
        let right = Reference.write_layout(structures, offsets, space);
        if right == number {
            change(structures, offsets, space);
        }
        right
    }));
}

fn expect_write_caught(subject: Wrong) {
    expect_caught(subject, "write_layout");
}

fn next(offsets: &[u16], place: usize) -> u16 {
    offsets.get(place + 1).copied().unwrap_or(0)
}

/// The right header.
fn right(structures: &[Structure], offsets: &[u16], place: usize) -> u32 {
    header(&structures[place], next(offsets, place))
}

/// The last pointer stays what it was.
pub fn with_the_last_pointer_left() -> Wrong {
    by_words(|structures, offsets, place, old| match place + 1 == offsets.len() {
        true => right(structures, offsets, place) | old & 0xFFF0_0000,
        false => right(structures, offsets, place),
    })
}

#[test]
fn the_form_of_these_with_nothing_wrong_is_not_caught() {
    expect_not_caught(by_words(|structures, offsets, place, _| {
        right(structures, offsets, place)
    }));
}

#[test]
fn bytes_written_one_by_one_from_the_first_on_are_not_caught() {
    expect_not_caught(Wrong::lay(|structures, offsets, space| {
        if are_bad(structures) || space.len() != 4096 {
            return 1;
        }
        if !RIGHT.accept(structures, offsets) {
            return 18;
        }
        for (place, structure) in structures.iter().enumerate() {
            let (at, pointer) = (usize::from(offsets[place]), next(offsets, place));
            space[at] = structure.id as u8;
            space[at + 1] = (structure.id >> 8) as u8;
            space[at + 2] = structure.version as u8 | (pointer << 4) as u8;
            space[at + 3] = (pointer >> 4) as u8;
        }
        0
    }));
}

#[test]
fn the_last_pointer_left_or_another() {
    expect_write_caught(with_the_last_pointer_left());
    let pointers: [fn(&[u16]) -> u16; 6] = [
        |offsets| offsets[offsets.len() - 1],
        |_| 0x100,
        |offsets| (offsets[offsets.len() - 1] + 4) % 0x1000,
        |_| 0xFFF,
        |_| 1,
        |_| 4,
    ];
    for pointer in pointers {
        expect_words_caught(move |structures, offsets, place, _| match place + 1 == offsets.len() {
            true => header(&structures[place], pointer(offsets)),
            false => right(structures, offsets, place),
        });
    }
}

#[test]
fn other_pointers() {
    let pointers: [fn(&[u16], usize) -> u16; 9] = [
        |_, _| 0,
        |offsets, place| offsets[place],
        |offsets, place| next(offsets, place) / 4,
        |offsets, place| next(offsets, place) & 0xFF,
        |offsets, place| next(offsets, place) & 0xFF0,
        |offsets, place| next(offsets, place) & 0x7FF,
        |offsets, place| next(offsets, place) | 1,
        |offsets, place| next(offsets, place) | 2,
        |offsets, place| if place == 0 { 0 } else { offsets[place - 1] },
    ];
    for pointer in pointers {
        expect_words_caught(move |structures, offsets, place, _| header(&structures[place], pointer(offsets, place)));
    }
}

/// The pointer goes to where the structure ends, which is the next one only where there is no gap.
#[test]
fn a_pointer_to_the_end_of_the_structure() {
    expect_words_caught(|structures, offsets, place, _| match place + 1 == offsets.len() {
        true => right(structures, offsets, place),
        false => {
            let end = offsets[place] + structures[place].length.next_multiple_of(4);
            header(&structures[place], end)
        }
    });
}

#[test]
fn each_bit_of_a_header_lost_or_set() {
    for bit in 0..32 {
        // A pointer to a multiple of 4 has no bottom bits to lose.
        if !matches!(bit, 20 | 21) {
            expect_words_caught(move |structures, offsets, place, _| right(structures, offsets, place) & !(1 << bit));
        }
        expect_words_caught(move |structures, offsets, place, _| right(structures, offsets, place) | 1 << bit);
    }
}

#[test]
fn fields_at_other_bits() {
    let headers: [fn(u32, u32, u32) -> u32; 9] = [
        |id, version, next| id | version << 20 | next << 20,
        |id, version, next| id | version << 16 | next << 16,
        |id, version, next| id << 16 | version << 12 | next,
        |id, version, next| id << 4 | version | next << 20,
        |id, version, next| id | version << 12 | next << 20,
        |id, version, next| id | version << 17 | next << 20,
        |id, version, next| id | version << 16 | next << 18,
        |id, version, next| (id | version << 16 | next << 20).swap_bytes(),
        |id, version, next| id.swap_bytes() >> 16 | version << 16 | next << 20,
    ];
    for other in headers {
        expect_words_caught(move |structures, offsets, place, _| {
            let Structure { id, version, .. } = structures[place];
            other(id.into(), version.into(), next(offsets, place).into())
        });
    }
}

#[test]
fn what_was_there_kept() {
    for kept in [
        0x0000_FFFF,
        0x000F_0000,
        0xFFF0_0000,
        0x0030_0000,
        0xFFFF_FFFF,
        0x000F_FFFF,
    ] {
        expect_words_caught(move |structures, offsets, place, old| right(structures, offsets, place) | old & kept);
        expect_words_caught(move |structures, offsets, place, old| {
            right(structures, offsets, place) & !kept | old & kept
        });
    }
}

#[test]
fn a_header_not_written_where_something_or_nothing_was() {
    expect_words_caught(|structures, offsets, place, old| match old {
        0 => right(structures, offsets, place),
        _ => old,
    });
    expect_words_caught(|structures, offsets, place, old| match old {
        0 => 0,
        _ => right(structures, offsets, place),
    });
    expect_words_caught(
        |structures, offsets, place, old| match old as u16 == structures[place].id {
            true => old,
            false => right(structures, offsets, place),
        },
    );
}

#[test]
fn one_header_not_written() {
    expect_words_caught(|_, _, _, old| old);
    expect_words_caught(|structures, offsets, place, old| match place {
        0 => old,
        _ => right(structures, offsets, place),
    });
    expect_words_caught(|structures, offsets, place, old| match place + 1 == offsets.len() {
        true => old,
        false => right(structures, offsets, place),
    });
    for left_out in [1, 2, 255, 256, 958, 959] {
        expect_words_caught(move |structures, offsets, place, old| match place == left_out {
            true => old,
            false => right(structures, offsets, place),
        });
    }
}

#[test]
fn the_header_of_another_structure() {
    expect_words_caught(|structures, offsets, place, _| header(&structures[0], next(offsets, place)));
    expect_words_caught(|structures, offsets, place, _| {
        header(&structures[structures.len() - 1 - place], next(offsets, place))
    });
}

#[test]
fn written_before_the_check() {
    expect_write_caught(Wrong::lay(|structures, offsets, space| {
        let number = Reference.write_layout(structures, offsets, space);
        if number == 18 {
            write_headers(structures, offsets, space);
        }
        number
    }));
    expect_caught_after(18, |structures, offsets, space| {
        if let Some(&first) = offsets.first() {
            put(space, first.into(), header(&structures[0], next(offsets, 0)));
        }
    });
}

/// Writes one header after the other, and gives up where one overlaps, falls or ends past 1000h.
#[test]
fn written_up_to_the_fault() {
    expect_caught_after(18, |structures, offsets, space| {
        let mut good = 0;
        while good < offsets.len() && good < structures.len() {
            let part = (&structures[..=good], &offsets[..=good]);
            if !RIGHT.accept(part.0, part.1) || good > 20 {
                break;
            }
            put(
                space,
                offsets[good].into(),
                header(&structures[good], next(offsets, good)),
            );
            good += 1;
        }
    });
}

#[test]
fn written_with_a_refusal_of_1() {
    expect_caught_after(1, |structures, offsets, space| {
        if space.len() == 4096 {
            write_headers(structures, offsets, space);
        }
    });
    expect_caught_after(1, |structures, offsets, space| {
        if space.len() != 4096 {
            write_headers(structures, offsets, space);
        }
    });
}

#[test]
fn more_than_headers_written() {
    expect_caught_after(0, |structures, offsets, space| {
        for (structure, &offset) in structures.iter().zip(offsets) {
            let at = usize::from(offset);
            space[at + 4..at + usize::from(structure.length)].fill(0);
        }
    });
    expect_caught_after(0, |structures, offsets, space| {
        let last = structures.len() - 1;
        let end = usize::from(offsets[last]) + usize::from(structures[last].length);
        space[end..].fill(0);
    });
    expect_caught_after(0, |structures, offsets, space| {
        let at = usize::from(offsets[0]);
        if structures[0].length >= 8 {
            put(space, at + 4, u32::from(structures[0].length));
        }
    });
    expect_caught_after(0, |_, offsets, space| {
        let behind = usize::from(offsets[offsets.len() - 1]) + 4;
        put(space, behind, 0);
    });
}

/// The headers of the list that was there before are blanked where they are none now.
#[test]
fn the_list_before_blanked() {
    expect_write_caught(Wrong::lay(|structures, offsets, space| {
        let mut room = [0; 960];
        let before = Reference.walk_extended(space, &mut room);
        let number = Reference.write_layout(structures, offsets, space);
        if number == 0 {
            for old in room[..before.count].iter().filter(|old| !offsets.contains(old)) {
                put(space, usize::from(*old), 0);
            }
        }
        number
    }));
}

#[test]
fn the_compatible_list_or_the_first_bytes_touched() {
    for (place, value) in [(0x06, 0x10), (0x34, 0x40), (0x00, 0x00), (0x0FF, 0x00), (0x34, 0x00)] {
        expect_caught_after(0, move |_, _, space| space[place] = value);
    }
    expect_caught_after(0, |_, _, space| put(space, 0x004, 0x100));
}

#[test]
fn another_size_of_the_space_taken() {
    let tests: [fn(usize) -> bool; 5] = [
        |_| true,
        |length| length >= 4096,
        |length| length <= 4096,
        |length| length / 4 == 1024,
        |length| length % 256 == 0,
    ];
    for is_size in tests {
        expect_write_caught(Wrong::lay(move |structures, offsets, space| {
            if are_bad(structures) || !is_size(space.len()) {
                return 1;
            }
            if !RIGHT.accept(structures, offsets) {
                return 18;
            }
            write_headers(structures, offsets, space);
            0
        }));
    }
}

#[test]
fn the_layout_before_written_once_more() {
    let mut last: Option<(Vec<Structure>, Vec<u16>)> = None;
    expect_write_caught(Wrong::lay(move |structures, offsets, space| {
        let number = Reference.write_layout(structures, offsets, space);
        if number == 0 {
            let before = last.replace((structures.to_vec(), offsets.to_vec()));
            if let Some((structures, offsets)) = before.filter(|(_, before)| before.len() > offsets.len()) {
                write_headers(&structures[..1], &offsets[..1], space);
            }
        }
        number
    }));
}
