//! The planner of request 10/13: the lowest proposal, or that there is none.

use super::accept::{FIRST, accept};
use super::claims::Claims;
use super::refusal::Refusal;
use super::space::SPACE_BYTES;
use super::structures::{Structure, vet};

/// Writes a proposal to the start of the room: 1 where the structures are bad, 2 for an "offset room below the count",
/// 14 where there is none, else 0.
pub fn plan_layout(structures: &[Structure], room: &mut [u16]) -> u8 {
    plan(structures, room).map_or_else(Refusal::number, |()| 0)
}

/// Of all proposals that the checker accepts, the one in which every structure stands the lowest: at the lowest word
/// that none before it has a byte of.
fn plan(structures: &[Structure], room: &mut [u16]) -> Result<(), Refusal> {
    vet(structures)?;
    let room = room.get_mut(..structures.len()).ok_or(Refusal::Room)?;
    if !has_layout(structures) {
        return Err(Refusal::NoLayout);
    }
    let mut claims = Claims::none();
    let mut at = usize::from(FIRST);
    for (place, (structure, offset)) in structures.iter().zip(room.iter_mut()).enumerate() {
        while !claims.is_free(at) {
            at += 4;
        }
        let is_given = claims.claim(place, structure, at);
        debug_assert!(is_given);
        *offset = at as u16;
    }
    debug_assert!(accept(structures, room).is_ok());
    Ok(())
}

/// "Answer 14 \"no layout\" is given exactly if no such proposal exists".
///
/// Not by a sum. From the last to the first, each is put as high as it can stand below what follows it. Where the first
/// then stands at 100h or above, it may come down to 100h, and that is a proposal; where it does not, any other proposal
/// would have it lower still.
fn has_layout(structures: &[Structure]) -> bool {
    let highest = |end: usize, structure: &Structure| Some(end.checked_sub(structure.length.into())? & !3);
    let first = structures.iter().rev().try_fold(SPACE_BYTES, highest);
    first.is_some_and(|first| first >= FIRST.into())
}
