//! An accepted layout written as headers into a space, by request 10/13.

use super::accept::accept;
use super::refusal::Refusal;
use super::space::{Space, store_word, whole_mut};
use super::structures::{Structure, vet};

/// Writes the headers: 1 where the structures are bad or the space is no space, 18 where the proposal is not accepted,
/// else 0.
pub fn write_layout(structures: &[Structure], offsets: &[u16], space: &mut [u8]) -> u8 {
    let written = vet(structures)
        .and_then(|()| whole_mut(space))
        .and_then(|space| accept(structures, offsets).map(|()| write(structures, offsets, space)));
    written.map_or_else(Refusal::number, |()| 0)
}

/// "An accepted layout is then written as headers into a lent space, changing header words only, and the walker must list
/// it as given." From the last to the first: each points to the one written before it, and the last to 0.
fn write(structures: &[Structure], offsets: &[u16], space: &mut Space) {
    let mut next = 0;
    for (structure, &offset) in structures.iter().zip(offsets).rev() {
        store_word(space, offset.into(), header(structure, next));
        next = offset;
    }
}

/// "ID 15:0, version 19:16, next 31:20"
fn header(structure: &Structure, next: u16) -> u32 {
    u32::from(structure.id) | u32::from(structure.version) << 16 | u32::from(next) << 20
}
