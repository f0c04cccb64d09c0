//! New boards: structures, the words of document 02 over them, and each call with a look at all that was lent.

use super::multicast::Drawn;
use super::{Lent, lent, room};
use thawribbon::{Layout, Offset, Refusal, Structure, raw};

/// A structure that may be laid out, of this length.
pub const fn long(length: u16) -> Structure {
    Structure {
        id: 0x0023,
        version: 1,
        length,
    }
}

/// Structures that may not: by their ID, their version, and their length.
pub const BAD: [Structure; 4] = [
    Structure { id: 0, ..long(4) },
    Structure { version: 16, ..long(4) },
    long(3),
    long(3841),
];

/// A length rounded up to 4, word by word.
pub fn rounded(length: u16) -> usize {
    (0..usize::from(length)).step_by(4).count() * 4
}

/// Offsets at which each structure stands at the first multiple of 4 behind the one before.
pub fn packed(structures: &[Structure]) -> Vec<Offset> {
    let mut at = 0x100;
    let place = |structure: &Structure| {
        let here = at;
        at += rounded(structure.length);
        Offset::try_from(here).unwrap_or(Offset::MAX)
    };
    structures.iter().map(place).collect()
}

/// Whether structures may be laid out.
fn are_good(structures: &[Structure]) -> bool {
    let good = |one: &Structure| one.id != 0 && one.version <= 15 && (4..=3840).contains(&one.length);
    (1..=960).contains(&structures.len()) && structures.iter().all(good)
}

/// The number that the planner gives, by the words of document 02.
pub fn plan_number(structures: &[Structure], room: usize) -> u8 {
    if !are_good(structures) {
        return 1;
    }
    if room < structures.len() {
        return 2;
    }
    let (last, before) = structures.split_last().expect("one at least");
    let needed = before.iter().map(|one| rounded(one.length)).sum::<usize>() + usize::from(last.length);
    if needed > 3840 { 14 } else { 0 }
}

/// The number that the checker gives, by the words of document 02, pair by pair.
pub fn check_number(structures: &[Structure], offsets: &[Offset]) -> u8 {
    if !are_good(structures) {
        return 1;
    }
    if offsets.len() != structures.len() || offsets[0] != 0x100 {
        return 18;
    }
    let end = |place: usize| usize::from(offsets[place]) + usize::from(structures[place].length);
    let stands = |place: usize| offsets[place] % 4 == 0 && end(place) <= 0x1000;
    let apart = |one: usize, other: usize| offsets[one] < offsets[other] && end(one) <= usize::from(offsets[other]);
    let all = (0..offsets.len()).all(|one| stands(one) && (one + 1..offsets.len()).all(|other| apart(one, other)));
    if all { 0 } else { 18 }
}

/// The number of an answer of the crate.
pub fn number<T>(answer: Result<T, Refusal>) -> u8 {
    answer.map_or_else(Refusal::number, |_| 0)
}

/// Structures to lend.
fn lend(structures: &[Structure]) -> Lent<Structure> {
    Lent::new(structures, BAD[0])
}

/// Plans, with a room of so many numbers: the number, in both ways. With 0 the offsets are the packed ones, and nothing else
/// has changed in any case.
pub fn planned(structures: &[Structure], length: usize) -> u8 {
    let lent = lend(structures);
    let mut one = room(length);
    let answer = raw::plan_layout(lent.part(), one.part_mut());
    if answer == 0 {
        one.expect(0, &packed(structures));
    }
    let mut other = room(length);
    let safe = Layout::plan(lent.part(), other.part_mut());
    assert!(
        safe.is_err()
            || safe.is_ok_and(|layout| layout.structures() == structures && layout.offsets() == packed(structures))
    );
    assert_eq!(number(safe), answer);
    assert!(one.part() == other.part());
    one.check("the room");
    lent.check("the structures");
    answer
}

/// Checks: the number, in both ways. Nothing has changed.
pub fn checked(structures: &[Structure], offsets: &[Offset]) -> u8 {
    let (structures, offsets) = (lend(structures), Lent::new(offsets, 0xA7A7));
    let answer = raw::check_layout(structures.part(), offsets.part());
    let safe = Layout::check(structures.part(), offsets.part());
    assert!(safe.is_err() || safe.is_ok_and(|layout| layout.offsets() == offsets.part()));
    assert_eq!(number(safe), answer);
    structures.check("the structures");
    offsets.check("the offsets");
    answer
}

/// The header of a structure that points to an offset, as a word in its bytes.
fn header(structure: Structure, next: Offset) -> [u8; 4] {
    (u32::from(structure.id) + (u32::from(structure.version) << 16) + (u32::from(next) << 20)).to_le_bytes()
}

/// Writes into a space of these bytes: the number, in both ways, and the space afterwards. With 0 the header words are those of
/// the layout, and nothing else has changed in any case.
pub fn written(structures: &[Structure], offsets: &[Offset], space: &[u8]) -> (u8, Vec<u8>) {
    let (mut one, mut other) = (lent(space), space.to_vec());
    let (structures, offsets) = (lend(structures), Lent::new(offsets, 0xA7A7));
    let answer = raw::write_layout(structures.part(), offsets.part(), one.part_mut());
    if answer == 0 {
        let nexts = offsets.part().iter().skip(1).copied().chain([0]);
        for ((&structure, &at), next) in structures.part().iter().zip(offsets.part()).zip(nexts) {
            one.expect(at.into(), &header(structure, next));
        }
    }
    let safe = Layout::check(structures.part(), offsets.part()).and_then(|layout| layout.write(&mut other));
    // A space of another size is seen before the layout here, and behind it there.
    assert!(number(safe) == answer || (answer, number(safe)) == (1, 18));
    assert!(one.part() == other);
    one.check("the space");
    structures.check("the structures");
    offsets.check("the offsets");
    (answer, other)
}

/// Structures that may be laid out, in such numbers and lengths that they often just fit.
pub fn drawn_structures(drawn: &mut Drawn) -> Vec<Structure> {
    let count = if drawn.below(4) == 0 {
        900 + drawn.below(62)
    } else {
        1 + drawn.below(40)
    };
    let mut below = |limit: u64| u16::try_from(drawn.below(limit)).expect("16 bits");
    let one = |_| Structure {
        id: 1 + below(0xFFFF),
        version: below(16),
        length: (4 + below(3840 / count + 4)).min(3840),
    };
    (0..count).map(one).collect()
}
