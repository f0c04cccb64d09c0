//! A space of 4,096 bytes, and its little-endian words.

use super::refusal::Refusal;

/// The size of every space, of its rules and of its marks.
pub(super) const SPACE_BYTES: usize = 4096;

/// A space, its rules or its marks, of the right size.
pub(super) type Space = [u8; SPACE_BYTES];

/// The lent bytes as a space; refused with 1 where "a space or rule space isn't 4,096 bytes", and request 6/13 adds of
/// the marks: "so does another buffer length".
pub(super) fn whole(bytes: &[u8]) -> Result<&Space, Refusal> {
    bytes.try_into().map_err(|_| Refusal::Outside)
}

/// As [`whole`], for a space that may be written.
pub(super) fn whole_mut(bytes: &mut [u8]) -> Result<&mut Space, Refusal> {
    bytes.try_into().map_err(|_| Refusal::Outside)
}

/// The place of the word that an offset lies in. The result is below the end of the space by four bytes or more.
const fn word_place(offset: usize) -> usize {
    offset & (SPACE_BYTES - 4)
}

/// The little-endian word at an offset that is a multiple of 4 and below 1000h.
pub(super) fn word(space: &Space, offset: usize) -> u32 {
    debug_assert!(offset == word_place(offset));
    let place = word_place(offset);
    u32::from_le_bytes([space[place], space[place + 1], space[place + 2], space[place + 3]])
}

/// Stores a little-endian word at an offset that is a multiple of 4 and below 1000h.
pub(super) fn store_word(space: &mut Space, offset: usize, value: u32) {
    debug_assert!(offset == word_place(offset));
    let place = word_place(offset);
    space[place..place + 4].copy_from_slice(&value.to_le_bytes());
}

/// Whether an offset is a multiple of 4 within a range, both ends included.
pub(super) const fn is_word_offset(offset: usize, lowest: usize, highest: usize) -> bool {
    offset % 4 == 0 && lowest <= offset && offset <= highest
}
