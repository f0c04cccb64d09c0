//! The Multicast extended capability, by request 8/13: its seven numbers, and whether a reading can give such ones.

use std::ops::RangeInclusive;

use super::refusal::Refusal;
use super::space::{SPACE_BYTES, Space, is_word_offset, store_word, whole, word};

/// "ID 0012h, version 1", as they stand in bits 19:0 of the header.
const ID_AND_VERSION: u32 = 0x1_0012;
/// "fewer than 28h bytes left: 9"
const LEAST_BYTES: usize = 0x28;
/// "index under 12 while enabled: 13"
const LEAST_INDEX: u64 = 12;
/// "asked for at the same offsets as a DVSEC": the lowest and the highest of these.
const LOWEST: usize = 0x100;
const HIGHEST: usize = 0xFFC;

/// The numbers of a Multicast capability. A host may put anything into them, so each has 64 bits.
#[derive(Clone, Copy, Debug, Default, PartialEq, Eq)]
pub struct Groups {
    pub max_group: u64,
    pub num_group: u64,
    pub enable: u64,
    pub index: u64,
    pub base: u64,
    pub receive: u64,
    pub block_all: u64,
}

/// The number, and what was read; all of it is 0 where it is refused.
#[derive(Clone, Copy, Debug, PartialEq, Eq)]
pub struct Multicast {
    pub number: u8,
    pub groups: Groups,
}

/// Reads the Multicast capability at an offset.
pub fn multicast(space: &[u8], at: usize) -> Multicast {
    match whole(space).and_then(|space| read(space, at)) {
        Ok(groups) => {
            debug_assert_eq!(groups, fields_bit_by_bit(&space[at..at + LEAST_BYTES]));
            Multicast { number: 0, groups }
        }
        Err(refusal) => Multicast {
            number: refusal.number(),
            groups: Groups::default(),
        },
    }
}

/// "Not this structure: 8; fewer than 28h bytes left: 9; Num Group over Max Group, or index under 12 while enabled: 13."
fn read(space: &Space, at: usize) -> Result<Groups, Refusal> {
    if !is_word_offset(at, LOWEST, HIGHEST) {
        return Err(Refusal::Outside);
    }
    if word(space, at) & 0xF_FFFF != ID_AND_VERSION {
        return Err(Refusal::Structure);
    }
    if SPACE_BYTES - at < LEAST_BYTES {
        return Err(Refusal::StructureLength);
    }
    let groups = fields(space, at);
    let index_is_low = groups.enable == 1 && groups.index < LEAST_INDEX;
    if groups.num_group > groups.max_group || index_is_low {
        return Err(Refusal::Groups);
    }
    Ok(groups)
}

/// "at +4 Max Group 5:0; at +6 Num Group 5:0 and Enable 15; at +8, 64 bits, Index Position 5:0 and base address 63:12; at
/// +10h Receive and at +18h Block All, 64 bits each."
fn fields(space: &Space, at: usize) -> Groups {
    let numbers = word(space, at + 4);
    let place = two_words(space, at + 8);
    Groups {
        max_group: u64::from(numbers & 0x3F),
        num_group: u64::from(numbers >> 16 & 0x3F),
        enable: u64::from(numbers >> 31),
        index: place & 0x3F,
        base: place & !0xFFF,
        receive: two_words(space, at + 0x10),
        block_all: two_words(space, at + 0x18),
    }
}

/// The 64 bits at an offset, the low word first.
fn two_words(space: &Space, offset: usize) -> u64 {
    u64::from(word(space, offset + 4)) << 32 | u64::from(word(space, offset))
}

/// The same once more, each bit from its byte. Only stated: no answer rests on it.
fn fields_bit_by_bit(bytes: &[u8]) -> Groups {
    let bit = |first: usize, place: usize| u64::from(bytes[first + place / 8] >> (place % 8) & 1);
    let bits = |first, taken: RangeInclusive<usize>| {
        let lowest = *taken.start();
        taken.map(|place| bit(first, place) << (place - lowest)).sum::<u64>()
    };
    Groups {
        max_group: bits(4, 0..=5),
        num_group: bits(6, 0..=5),
        enable: bits(6, 15..=15),
        index: bits(8, 0..=5),
        base: bits(8, 12..=63) * 4096,
        receive: bits(0x10, 0..=63),
        block_all: bits(0x18, 0..=63),
    }
}

/// Whether the reading gives these numbers for some space and offset. They are put into the bits that they are read from,
/// with what goes beyond lost or mixed up, and read back. Numbers that some space gives come back so; others never do.
pub(super) fn is_given(groups: &Groups, sheet: &mut Space) -> bool {
    let max_group = groups.max_group as u16;
    let num_group_and_enable = (groups.num_group | groups.enable << 15) as u16;
    store_word(sheet, LOWEST, ID_AND_VERSION);
    store_word(
        sheet,
        LOWEST + 4,
        u32::from(num_group_and_enable) << 16 | u32::from(max_group),
    );
    for (offset, value) in [
        (0x08, groups.index | groups.base),
        (0x10, groups.receive),
        (0x18, groups.block_all),
    ] {
        store_word(sheet, LOWEST + offset, value as u32);
        store_word(sheet, LOWEST + offset + 4, (value >> 32) as u32);
    }
    read(sheet, LOWEST) == Ok(*groups)
}
