//! Proposals of offsets for structures that have a layout: the lowest, the highest, and such as leave gaps.

use thawribbon::raw::Structure;

use super::random::Random;
use super::structures::MOST_STRUCTURES;

/// The words that a structure takes.
fn words(structure: &Structure) -> usize {
    usize::from(structure.length).div_ceil(4)
}

/// The offset of a word, counted from 100h on, in 16 bits.
const fn offset(word: usize) -> u16 {
    (0x100 + 4 * word) as u16
}

/// Each structure right behind the one before it, also past 1000h.
pub fn lowest(structures: &[Structure]) -> Vec<u16> {
    with_gaps(structures, |_| 0)
}

/// A proposal that is accepted.
pub fn acceptable(structures: &[Structure], random: &mut Random) -> Vec<u16> {
    let taken: usize = structures.iter().map(words).sum();
    let mut spare = MOST_STRUCTURES - taken;
    match random.weighted(&[30, 20, 20, 30]) {
        0 => lowest(structures),
        1 => with_gaps(structures, |place| if place == 1 { spare } else { 0 }),
        2 => with_gaps(
            structures,
            |place| if place + 1 == structures.len() { spare } else { 0 },
        ),
        _ => with_gaps(structures, |_| {
            let any = random.within(0, spare);
            let gap = random.pick(&[0, 0, 1.min(spare), any]);
            spare -= gap;
            gap
        }),
    }
}

/// Leaves so many words free before each structure but the first.
fn with_gaps(structures: &[Structure], mut gap: impl FnMut(usize) -> usize) -> Vec<u16> {
    let mut word = 0;
    let places = structures.iter().enumerate();
    let offsets = places.map(|(place, structure)| {
        let free = if place == 0 { 0 } else { gap(place) };
        let at = word + free;
        word = at + words(structure);
        offset(at)
    });
    offsets.collect()
}
