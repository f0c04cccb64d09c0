//! Request 2/13, sentence by sentence, on the model: extended lists with a null capability, at 100h and further on.

use super::{List, Walked, walk};

/// What the room is filled with before it is lent.
const LENT: u16 = 0xAAAA;

/// Walks a list of a space that is 0 but for some words. Answers the number and the place with what was listed; the rest
/// of the room has to stay.
fn walked(list: List, words: &[(usize, u32)]) -> (u8, u16, Vec<u16>) {
    let mut space = [0; 4096];
    for &(at, word) in words {
        space[at..at + 4].copy_from_slice(&word.to_le_bytes());
    }
    let mut room = vec![LENT; 1023];
    let Walked { number, count, place } = walk(list, &space, &mut room);
    assert!(room[count..].iter().all(|&cell| cell == LENT));
    room.truncate(count);
    (number, place, room)
}

/// What a walk answers that lists these offsets.
fn lists(offsets: impl Into<Vec<u16>>) -> (u8, u16, Vec<u16>) {
    (0, 0, offsets.into())
}

/// What a walk answers that is refused.
fn breaks(number: u8, place: u16) -> (u8, u16, Vec<u16>) {
    (number, place, Vec::new())
}

#[test]
fn empty_only_if_the_whole_word_at_100h_is_zero() {
    let empty = lists([]);
    assert_eq!(walked(List::Extended, &[]), empty);
    let behind = [(0x0FC, u32::MAX), (0x104, 0x1081_0023), (0x108, 0x0001_000C)];
    assert_eq!(walked(List::Extended, &behind), empty);
}

#[test]
fn each_bit_of_the_word_at_100h_alone() {
    for bit in 0..32 {
        let word = 1_u32 << bit;
        let expected = match (word >> 22) * 4 {
            0 => lists([0x100]),
            0x100 => breaks(12, 0x100),
            0x004..0x100 => breaks(11, 0x100),
            pointer => lists([0x100, pointer as u16]),
        };
        assert_eq!(walked(List::Extended, &[(0x100, word)]), expected, "{word:#010x}");
    }
}

#[test]
fn every_version_with_a_pointer_of_0_to_3() {
    for fields in 1..64 {
        let word = fields << 16;
        assert_eq!(walked(List::Extended, &[(0x100, word)]), lists([0x100]), "{word:#010x}");
    }
}

/// "A supplier blanks a capability by zeroing its ID and keeping its pointer."
#[test]
fn every_record_behind_a_blanked_one_is_listed() {
    let chain = [(0x100, 0x1400_0023), (0x140, 0x1800_000C), (0x180, 0x0000_0012)];
    for version in 0..16 {
        for blanked in 0..8 {
            let words = [0, 1, 2].map(|place| {
                let (at, word) = chain[place];
                let id = if blanked >> place & 1 == 1 { 0xFFFF } else { 0 };
                (at, word & !id | version << 16)
            });
            assert_eq!(walked(List::Extended, &words), lists([0x100, 0x140, 0x180]));
        }
    }
}

#[test]
fn the_longest_chain_with_every_id_0() {
    let offsets: Vec<u16> = (0x100..0x1000).step_by(4).collect();
    let mut words: Vec<(usize, u32)> = offsets
        .windows(2)
        .map(|pair| (pair[0].into(), u32::from(pair[1]) << 20))
        .collect();
    assert_eq!(walked(List::Extended, &words), lists(offsets));
    words.push((0xFFC, 0x8000_0000));
    assert_eq!(walked(List::Extended, &words), breaks(12, 0xFFC));
}

#[test]
fn a_broken_chain_from_a_null_capability_on() {
    let sees = |words: &[(usize, u32)], number, place| {
        for version in 0..16 {
            let words: Vec<_> = words.iter().map(|&(at, word)| (at, word | version << 16)).collect();
            assert_eq!(walked(List::Extended, &words), breaks(number, place), "{words:x?}");
        }
    };
    sees(&[(0x100, 0x1000_0000)], 12, 0x100);
    sees(&[(0x100, 0x0FC0_0000)], 11, 0x100);
    sees(&[(0x100, 0x1400_0000), (0x140, 0x1000_0000)], 12, 0x140);
    sees(&[(0x100, 0x1400_0000), (0x140, 0x0040_0000)], 11, 0x140);
    let behind = [(0x100, 0x1400_0000), (0x140, 0x1800_0000), (0x180, 0x1400_0000)];
    sees(&behind, 12, 0x180);
}

/// "the extended list is empty only if": of the other two lists the request says nothing.
#[test]
fn the_other_lists_take_a_header_of_zero() {
    let compatible = [(0x004, 1 << 20), (0x034, 0x040), (0x040, 0x8000)];
    assert_eq!(walked(List::Compatible, &compatible), lists([0x040, 0x080]));
    assert_eq!(walked(List::Compatible, &compatible[..2]), lists([0x040]));
    let trusted = [(0x004, 0x100), (0x100, 0x2000_0000)];
    assert_eq!(walked(List::Trusted, &trusted), lists([0x100, 0x200]));
    assert_eq!(walked(List::Trusted, &trusted[..1]), lists([0x100]));
}
