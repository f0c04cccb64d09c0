//! The three capability lists: the offsets of the one legal chain, or what broke and where.

use super::refusal::Refusal;
use super::space::{SPACE_BYTES, Space, is_word_offset, whole, word};

/// Which list is walked.
#[derive(Clone, Copy, Debug, PartialEq, Eq)]
pub enum List {
    Compatible,
    Extended,
    Trusted,
}

/// The answer of a walk: its number, the length of the chain, and where the list broke.
#[derive(Clone, Copy, Debug, PartialEq, Eq)]
pub struct Walked {
    pub number: u8,
    pub count: usize,
    /// With 11 and 12 "the offset of the structure holding that pointer, or 0 where the start itself is at fault"; 0 with
    /// every other number.
    pub place: u16,
}

impl Walked {
    const fn refused(refusal: Refusal, place: u16) -> Self {
        Self {
            number: refusal.number(),
            count: 0,
            place,
        }
    }
}

/// "The bottom two bits of every pointer are dropped first."
const POINTER_BITS: usize = 0xFFC;
/// The words of a space.
const WORDS: usize = SPACE_BYTES / 4;

/// Writes the offsets of a list's legal chain to the start of the room. "If one exists, the answer is 0, its offsets in
/// order are in a lent list of 16-bit numbers, the rest of the list stays, and the count of headers read is the chain's
/// length, at most the maximum. If none exists, 7."
///
/// The 7 is replaced by document 02, 3/13: "Split it: 11 for a pointer below the floor, 12 for a pointer to an offset
/// already in the chain."
pub fn walk(list: List, space: &[u8], room: &mut [u16]) -> Walked {
    let space = match whole(space) {
        Ok(space) => space,
        Err(refusal) => return Walked::refused(refusal, 0),
    };
    match list {
        List::Compatible => follow::<0x040, 48>(compatible_start(space), |at| compatible_next(space, at), room),
        List::Extended => follow::<0x100, 960>(extended_start(space), |at| extended_next(space, at), room),
        List::Trusted => follow::<0x008, 1022>(trusted_start(space), |at| extended_next(space, at), room),
    }
}

/// Follows pointers from a start to 0. "A legal chain is a finite list of offsets, the first the start, each next the
/// one its predecessor points to, none below the floor, the last pointing to 0."
///
/// So the pointers leave no choice, and no legal chain exists exactly where they lead below the floor, or to an offset
/// a second time: from there they go round, and no end comes. Document 02, 3/13: "The walk keeps a mark for each of the
/// 1,024 words, so that the first fault is the one told." No count decides.
///
/// The offsets are kept aside until the end is reached: a broken chain leaves the room as it was.
fn follow<const FLOOR: usize, const MAXIMUM: usize>(
    start: usize,
    next: impl Fn(usize) -> usize,
    room: &mut [u16],
) -> Walked {
    if room.len() < MAXIMUM {
        return Walked::refused(Refusal::Room, 0);
    }
    let mut met = [false; WORDS];
    let mut chain = [0; WORDS];
    let mut count = 0;
    let mut at = start & POINTER_BITS;
    while at != 0 {
        if at < FLOOR || met[at / 4] {
            debug_assert!(could_be_legal(&chain[..count], FLOOR, MAXIMUM));
            debug_assert!(chain[..count].contains(&(at as u16)) == (at >= FLOOR));
            let refusal = if at < FLOOR { Refusal::Below } else { Refusal::Again };
            return broken(refusal, &chain[..count]);
        }
        debug_assert!(count < MAXIMUM, "more words were met than lie from the floor on");
        met[at / 4] = true;
        chain[count] = at as u16;
        count += 1;
        at = next(at) & POINTER_BITS;
    }
    debug_assert!(could_be_legal(&chain[..count], FLOOR, MAXIMUM));
    room[..count].copy_from_slice(&chain[..count]);
    Walked {
        number: 0,
        count,
        place: 0,
    }
}

/// A chain that breaks after these offsets. "Each tells the offset of the structure holding that pointer, or 0 where the
/// start itself is at fault": the last of them holds it, and before the first there is only the start.
///
/// Not inlined, so that all which a legal chain does for a header is to mark it and to add its offset.
#[inline(never)]
fn broken(refusal: Refusal, chain: &[u16]) -> Walked {
    Walked::refused(refusal, chain.last().copied().unwrap_or(0))
}

/// What holds of every legal chain, and of what is met before a fault: it is not longer than the maximum, its offsets
/// are words of the space from the floor on, and no two are the same. Only stated: no answer rests on it.
fn could_be_legal(chain: &[u16], floor: usize, maximum: usize) -> bool {
    let mut sorted = [0; WORDS];
    let Some(sorted) = sorted.get_mut(..chain.len()) else {
        return false;
    };
    sorted.copy_from_slice(chain);
    sorted.sort_unstable();
    let inside = sorted
        .iter()
        .all(|&at| is_word_offset(at.into(), floor, SPACE_BYTES - 4));
    chain.len() <= maximum && inside && sorted.is_sorted_by(|lower, higher| lower < higher)
}

/// "byte 34h; empty if byte 06h bit 4 is 0"
fn compatible_start(space: &Space) -> usize {
    if space[0x06] & 0x10 == 0 {
        0
    } else {
        usize::from(space[0x34])
    }
}

/// "ID byte, next byte"
fn compatible_next(space: &Space, at: usize) -> usize {
    usize::from(space[(at & 0xFC) + 1])
}

/// Document 01: "100h; empty if the ID there is 0000h". Replaced by document 02, 2/13: "the extended list is empty only
/// if the whole word at 100h is zero. Otherwise the structure is listed with ID 0000h."
fn extended_start(space: &Space) -> usize {
    if word(space, 0x100) == 0 { 0 } else { 0x100 }
}

/// "bits 11:0 of the word at 004h"
fn trusted_start(space: &Space) -> usize {
    word(space, 0x004) as usize & 0xFFF
}

/// "ID 15:0, version 19:16, next 31:20", of the extended and of the trusted list.
fn extended_next(space: &Space, at: usize) -> usize {
    (word(space, at) >> 20) as usize
}

#[cfg(test)]
mod tests {
    use super::could_be_legal;

    #[test]
    fn chains_that_could_be_legal_and_such_as_could_not() {
        let could = |chain: &[u16]| could_be_legal(chain, 0x040, 3);
        assert!(could(&[]) && could(&[0xFFC]) && could(&[0x044, 0x0FC, 0x040]));
        assert!(!could(&[0x040, 0x044, 0x048, 0x04C]), "longer than the maximum");
        assert!(!could(&[0x040, 0x03C]), "below the floor");
        assert!(!could(&[0x042]) && !could(&[0x1000]), "no word of the space");
        assert!(!could(&[0x080, 0x040, 0x080]), "one offset twice");
        assert!(
            !could_be_legal(&[0x040; 1025], 0x040, 2000),
            "more than there are words"
        );
    }
}
