//! Lists of sound structures: such as have a layout, with words to spare or without, and such as have none.

use thawribbon::raw::Structure;

use super::random::Random;

/// The most structures of a list. As many words there are from 100h on, and the longest structure has so many.
pub const MOST_STRUCTURES: usize = 960;
/// The words of a sum that has nothing but 0 in its low 12 bits, and in its low 16.
const OF_12_BITS: usize = 1 << 10;
const OF_16_BITS: usize = 1 << 14;

/// A structure in which all is random.
pub const fn any_structure(random: &mut Random) -> Structure {
    let bits = random.bits();
    Structure {
        id: bits as u16,
        version: (bits >> 16) as u16,
        length: (bits >> 32) as u16,
    }
}

/// A sound structure of so many words, of which the last may not be full.
pub fn sound_structure(words: usize, random: &mut Random) -> Structure {
    let any = random.within(1, 0xFFFF) as u16;
    let less = if words > 1 { random.pick(&[0, 0, 1, 2, 3]) } else { 0 };
    Structure {
        id: random.pick(&[1, 0xFFFF, 0x0100, 0x8000, any, any, any, any, any, any, any, any]),
        version: random.below(16) as u16,
        length: (4 * words - less) as u16,
    }
}

/// Sound structures that take so many words together.
pub fn structures_of(count: usize, words: usize, random: &mut Random) -> Vec<Structure> {
    let sizes = spread(count, words, random);
    sizes.into_iter().map(|size| sound_structure(size, random)).collect()
}

/// Structures that have a layout, often just so.
pub fn fitting(count: usize, random: &mut Random) -> Vec<Structure> {
    let any = random.within(count, MOST_STRUCTURES);
    let words = random.pick(&[MOST_STRUCTURES, MOST_STRUCTURES, MOST_STRUCTURES - 1, count, any, any]);
    structures_of(count, words.max(count), random)
}

/// Two structures or more that have no layout, often by a byte or a few, and some of them would have one if sums had
/// fewer bits.
pub fn crowded(count: usize, random: &mut Random) -> Vec<Structure> {
    let most = count * MOST_STRUCTURES;
    let within_a_layout = random.within(1, MOST_STRUCTURES);
    let words = match random.weighted(&[45, 20, 20, 7, 8]) {
        0 => MOST_STRUCTURES + 1,
        1 => random.within(MOST_STRUCTURES + 1, MOST_STRUCTURES + 12),
        2 => random.within(MOST_STRUCTURES + 1, most),
        3 => OF_12_BITS + within_a_layout,
        _ => random.within(1, 4) * OF_16_BITS + within_a_layout,
    };
    structures_of(count, words.min(most).max(count), random)
}

/// Two structures or more that just have a layout or just have none: by up to three bytes of the last, which has few words
/// rather than many.
pub fn on_edge(random: &mut Random) -> Vec<Structure> {
    let few = random.within(4, 12);
    let more = random.within(100, 958);
    let count = random.pick(&[2, 3, few, more, 959, 960]);
    let words = MOST_STRUCTURES + random.below(2);
    let most = (words - (count - 1)).min(MOST_STRUCTURES);
    let any = random.within(1, most);
    let last = random.pick(&[2, 2, 3, any]).min(most);
    let mut structures = structures_of(count - 1, words - last, random);
    let mut end = sound_structure(last, random);
    if last > 1 {
        end.length = (4 * last - random.below(4)) as u16;
    }
    structures.push(end);
    structures
}

/// A number of structures: the least and the most often, and few rather than many.
pub fn some_count(least: usize, most: usize, random: &mut Random) -> usize {
    let few = random.within(1, 12);
    let more = random.within(13, 120);
    let any = random.within(1, MOST_STRUCTURES);
    let count = random.pick(&[1, 2, 2, 3, few, few, few, few, few, more, more, any, 959, 960]);
    count.clamp(least, most)
}

/// The words of so many structures, one each at least and 960 at most: much alike, most of them with few, or one of them
/// with as many as it can have.
fn spread(count: usize, words: usize, random: &mut Random) -> Vec<usize> {
    let way = random.weighted(&[20, 45, 35]);
    let each = if way == 0 { words / count } else { 1 };
    let mut sizes = vec![each; count];
    let mut left = words - each * count;
    if way == 2 {
        let place = random.pick(&[0, count - 1, count - 1, count - 1]);
        let more = left.min(MOST_STRUCTURES - 1);
        sizes[place] += more;
        left -= more;
    }
    let most_at_once = 1 + left / random.pick(&[1, 8, 64]);
    while left > 0 {
        let size = &mut sizes[random.below(count)];
        let more = random.within(1, left.min(most_at_once)).min(MOST_STRUCTURES - *size);
        *size += more;
        left -= more;
    }
    sizes
}

#[cfg(test)]
mod tests {
    use super::{MOST_STRUCTURES, crowded, fitting, some_count};
    use crate::generate::Random;

    #[test]
    fn words_are_as_many_as_they_should_be() {
        let mut random = Random::new(1);
        let words = |structures: &[super::Structure]| -> usize {
            structures
                .iter()
                .map(|structure| usize::from(structure.length).div_ceil(4))
                .sum()
        };
        for _ in 0..3000 {
            let count = some_count(2, MOST_STRUCTURES, &mut random);
            let [fits, does_not] = [fitting(count, &mut random), crowded(count, &mut random)];
            assert_eq!([fits.len(), does_not.len()], [count; 2]);
            assert!(words(&fits) <= MOST_STRUCTURES && words(&does_not) > MOST_STRUCTURES);
            for structure in fits.iter().chain(&does_not) {
                assert!(structure.id != 0 && structure.version < 16 && (4..=3840).contains(&structure.length));
            }
        }
    }
}
