//! Chains of every kind of length, in rooms of exactly the maximum and of one less; the rest of the room stays as lent.
#![forbid(unsafe_code)]

mod common;

use common::{LISTS, SPACE, broken, chained, floor, header, start, walked};
use thawribbon::{List, Offset, Refusal, chain};

/// The end of the part of a space that a list can reach.
fn end(list: List) -> usize {
    if list == List::Compatible { 0x100 } else { 0x1000 }
}

/// Every offset that a list can have, lowest first.
fn every(list: List) -> Vec<usize> {
    (floor(list)..end(list)).step_by(4).collect()
}

/// Every offset that a list can have, with the last ones first as far as the list's start allows.
fn downwards(list: List) -> Vec<usize> {
    let mut offsets = every(list);
    let fixed = usize::from(list == List::Extended);
    offsets[fixed..].reverse();
    offsets
}

#[test]
fn the_longest_chains_fill_the_room() {
    for list in LISTS {
        for offsets in [every(list), downwards(list)] {
            assert_eq!(offsets.len(), list.maximum());
            let space = chained(list, &offsets, 0);
            assert_eq!(walked(list, &space, list.maximum(), &offsets), 0, "{list:?}");
            assert_eq!(walked(list, &space, list.maximum() + 1, &offsets), 0, "{list:?}");
            assert_eq!(walked(list, &space, list.maximum() - 1, &[]), 2, "{list:?}");
            let all: Vec<usize> = chain(list, &space)
                .expect("a legal chain")
                .into_iter()
                .map(usize::from)
                .collect();
            assert_eq!(all, offsets);
        }
    }
}

#[test]
fn a_chain_of_every_length() {
    for list in LISTS {
        let offsets = every(list);
        for count in 1..=offsets.len() {
            let space = chained(list, &offsets[..count], 0);
            assert_eq!(
                walked(list, &space, list.maximum(), &offsets[..count]),
                0,
                "{list:?}, {count}"
            );
            assert_eq!(walked(list, &space, list.maximum() - 1, &[]), 2, "{list:?}, {count}");
        }
    }
}

#[test]
fn the_longest_chain_led_back_to_any_of_its_own() {
    for list in LISTS {
        let offsets = every(list);
        for &back in &offsets {
            let space = chained(list, &offsets, back);
            assert_eq!(broken(list, &space), (12, end(list) - 4), "{list:?}, back to {back:X}h");
        }
    }
}

#[test]
fn a_loop_that_never_comes_back_to_the_start() {
    let space = chained(List::Extended, &[0x100, 0x140, 0x180], 0x140);
    assert_eq!(broken(List::Extended, &space), (12, 0x180));
}

/// A chain of every length, in both directions, with a last pointer below the floor.
#[test]
fn the_last_pointer_below_the_floor() {
    for list in LISTS {
        for offsets in [every(list), downwards(list)] {
            for count in 1..=offsets.len() {
                let space = chained(list, &offsets[..count], floor(list) - 4);
                assert_eq!(broken(list, &space), (11, offsets[count - 1]), "{list:?}, {count}");
            }
        }
    }
}

#[test]
fn a_start_below_the_floor_is_held_by_no_structure() {
    for list in [List::Compatible, List::Trusted] {
        for pointer in 4..floor(list) {
            let mut space = chained(list, &[floor(list)], floor(list));
            start(&mut space, list, pointer);
            assert_eq!(broken(list, &space), (11, 0), "{list:?} from {pointer:X}h");
            assert_eq!(chain(list, &space), Err(Refusal::BelowFloor { place: None }));
        }
    }
}

#[test]
fn a_fault_that_nothing_leads_to_is_none() {
    for list in LISTS {
        let offsets = [floor(list), floor(list) + 4];
        let fault = |space: &mut [u8], pointer| header(space, list, floor(list) + 8, pointer);
        let mut space = chained(list, &offsets, offsets[0]);
        fault(&mut space, floor(list) - 4);
        assert_eq!(broken(list, &space), (12, offsets[1]), "{list:?}");
        let mut space = chained(list, &offsets, floor(list) - 4);
        fault(&mut space, floor(list) + 8);
        assert_eq!(broken(list, &space), (11, offsets[1]), "{list:?}");
        let mut space = chained(list, &offsets, 0);
        fault(&mut space, floor(list) + 8);
        assert_eq!(walked(list, &space, list.maximum(), &offsets), 0, "{list:?}");
    }
}

#[test]
fn lists_without_an_entry() {
    for list in LISTS {
        assert_eq!(walked(list, &[0; SPACE], list.maximum(), &[]), 0);
        assert_eq!(walked(list, &[0; SPACE], list.maximum() - 1, &[]), 2);
        assert_eq!(chain(list, &[0; SPACE]), Ok(vec![]));
    }
    // Whatever else the space holds: byte 06h bit 4 is 0, and the word at 100h is.
    let mut space = vec![0xFF; SPACE];
    space[0x06] = 0xEF;
    space[0x100..0x104].fill(0);
    assert_eq!(walked(List::Compatible, &space, 48, &[]), 0);
    assert_eq!(walked(List::Extended, &space, 960, &[]), 0);
    assert_eq!(broken(List::Trusted, &space), (12, 0xFFC));
}

/// A word that is not zero at 100h is a header, with ID 0000h where only its version or its pointer is there.
#[test]
fn any_bit_at_100h_starts_a_chain() {
    for bit in 0..32 {
        let mut space = vec![0; SPACE];
        space[0x100..0x104].copy_from_slice(&(1u32 << bit).to_le_bytes());
        let next = (1usize << bit) >> 20 & 0xFFC;
        match next {
            0 => assert_eq!(walked(List::Extended, &space, 960, &[0x100]), 0, "bit {bit}"),
            1..0x100 => assert_eq!(broken(List::Extended, &space), (11, 0x100), "bit {bit}"),
            0x100 => assert_eq!(broken(List::Extended, &space), (12, 0x100), "bit {bit}"),
            _ => assert_eq!(walked(List::Extended, &space, 960, &[0x100, next]), 0, "bit {bit}"),
        }
    }
}

#[test]
fn a_blanked_capability_loses_nothing_behind_it() {
    let offsets = [0x100, 0x140, 0x180];
    for blanked in offsets {
        let mut space = chained(List::Extended, &offsets, 0);
        space[blanked..blanked + 2].fill(0);
        assert_eq!(walked(List::Extended, &space, 960, &offsets), 0, "{blanked:X}h");
    }
}

#[test]
fn the_bottom_two_bits_of_every_pointer_are_dropped() {
    for list in LISTS {
        for low in 0..4 {
            let (first, second) = (floor(list), floor(list) + 0x20);
            let mut space = vec![0; SPACE];
            start(&mut space, list, first + low);
            header(&mut space, list, first, second + low);
            header(&mut space, list, second, low);
            assert_eq!(
                walked(list, &space, list.maximum(), &[first, second]),
                0,
                "{list:?}, bits {low}"
            );
        }
    }
}

#[test]
fn the_convenient_form_is_refused_alike() {
    for list in LISTS {
        assert_eq!(chain(list, &[0; SPACE - 1]), Err(Refusal::BadDescription));
        let (at, low) = (floor(list) as Offset, floor(list) - 4);
        let space = chained(list, &[floor(list)], floor(list));
        assert_eq!(chain(list, &space), Err(Refusal::ComesBack { place: at }));
        let space = chained(list, &[floor(list)], low);
        assert_eq!(chain(list, &space), Err(Refusal::BelowFloor { place: Some(at) }));
    }
}
