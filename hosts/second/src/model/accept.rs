//! The checker of request 10/13: which proposals are accepted.

use super::claims::Claims;
use super::refusal::Refusal;
use super::space::SPACE_BYTES;
use super::structures::{Structure, vet};

/// "the first is at 100h"
pub(super) const FIRST: u16 = 0x100;

/// Decides on a proposal: 1 where the structures are bad, 18 where it is not accepted, else 0.
pub fn check_layout(structures: &[Structure], offsets: &[u16]) -> u8 {
    let checked = vet(structures).and_then(|()| accept(structures, offsets));
    checked.map_or_else(Refusal::number, |()| 0)
}

/// "One the checker doesn't accept is refused there with 18".
pub(super) fn accept(structures: &[Structure], offsets: &[u16]) -> Result<(), Refusal> {
    let accepted = is_acceptable(structures, offsets);
    debug_assert_eq!(accepted, is_acceptable_by_neighbours(structures, offsets));
    if accepted { Ok(()) } else { Err(Refusal::NotAccepted) }
}

/// "It accepts exactly the proposals of one offset a structure where the first is at 100h, all are multiples of 4, in the
/// given order and rising, no two overlap, and all end by 1000h."
///
/// Each structure is given its bytes of a space. Two that overlap want the same byte, and one that ends past 1000h wants
/// a byte that is not there. Who has the bytes from the lowest up is then the order that they rise in.
fn is_acceptable(structures: &[Structure], offsets: &[u16]) -> bool {
    let one_each = offsets.len() == structures.len();
    if !one_each || offsets.first() != Some(&FIRST) || offsets.iter().any(|offset| offset % 4 != 0) {
        return false;
    }
    let mut claims = Claims::none();
    let mut pairs = structures.iter().zip(offsets).enumerate();
    let all_have_theirs = pairs.all(|(place, (structure, &offset))| claims.claim(place, structure, offset.into()));
    all_have_theirs && claims.upwards().eq(0..structures.len())
}

/// The same once more, from each structure to the next. Only stated: no answer rests on it.
fn is_acceptable_by_neighbours(structures: &[Structure], offsets: &[u16]) -> bool {
    let lengths = structures.iter().map(|structure| usize::from(structure.length));
    let ends = offsets
        .iter()
        .zip(lengths)
        .map(|(&at, length)| usize::from(at) + length);
    let bounds = offsets[offsets.len().min(1)..].iter().map(|&next| usize::from(next));
    structures.len() == offsets.len()
        && offsets.first() == Some(&FIRST)
        && offsets.iter().all(|offset| offset & 3 == 0)
        && offsets.is_sorted()
        && ends.zip(bounds.chain([SPACE_BYTES])).all(|(end, bound)| end <= bound)
}
