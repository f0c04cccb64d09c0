//! The classes of a question for a Multicast capability, from the space, the offset and the model's answer.

use thawribbon::raw::Groups;

use super::alone::{first_told, offset_causes, only};
use super::group::Group;
use super::multicast_fields::count_read;
use super::tally::Tally;
use crate::generate::{NAMED_LENGTHS, named_length_place};

/// How many causes there are: six of the offset and of the space's size, and five of the structure.
const CAUSES: usize = 11;
/// Their places in the group of those that stand alone. Num Group over Max Group has one more, for Enable.
const NUM_GROUP: usize = 9;
const INDEX: usize = 10;
/// The causes of which two come together: there is nothing at an offset above, and so no other cause with it.
const OF_PAIRS: [usize; 8] = [0, 1, 2, 6, 7, 8, NUM_GROUP, INDEX];
/// One of these pairs cannot be: below 100h, a space of the right size has more than 28h bytes left.
const NEVER: (usize, usize) = (2, 8);

/// Counts a question for a Multicast capability, with what the model answers and leaves.
pub fn count_multicast(space: &[u8], at: usize, number: u8, groups: &Groups, tally: &mut Tally) {
    let answer = [0, 1, 8, 9, 13].iter().position(|&known| known == number);
    tally.add(
        Group::MulticastAnswers,
        answer.expect("Multicast answers 0, 1, 8, 9 or 13"),
    );
    if let Some(length) = named_length_place(space.len()) {
        tally.add(Group::SpaceLengths, 10 * NAMED_LENGTHS + length);
    }
    let bytes = space.get(at..).unwrap_or(&[]);
    let causes = causes(space, at, bytes);
    let in_order = [
        (1, &causes[..6]),
        (8, &causes[6..8]),
        (9, &causes[8..9]),
        (13, &causes[9..]),
    ];
    assert_eq!(
        first_told(&in_order),
        number,
        "the model and the causes disagree on a Multicast capability"
    );
    if number == 0 {
        return count_read(bytes, at, groups, tally);
    }
    assert_eq!(*groups, Groups::ZEROS, "a refusal tells numbers");
    match only(&causes) {
        Some(cause) => count_alone(cause, bytes, at, tally),
        None => count_two(&causes, tally),
    }
}

/// The causes in their order. Those of the structure are looked for where there is a header, and as far as it goes on.
fn causes(space: &[u8], at: usize, bytes: &[u8]) -> [bool; CAUSES] {
    let [size, unaligned, below, above, near_32, near_64] = offset_causes(space, at, 0x100, 0xFFC);
    let outside = [size, unaligned, below, above, near_32, near_64];
    let has = |length| bytes.len() >= length;
    let of_structure = [
        has(4) && bytes[..2] != [0x12, 0x00],
        has(4) && bytes[2] % 16 != 1,
        has(4) && !has(0x28),
        has(8) && bytes[6] % 64 > bytes[4] % 64,
        has(9) && bytes[7] >= 128 && bytes[8] % 64 < 12,
    ];
    let mut all = [false; CAUSES];
    all[..6].copy_from_slice(&outside);
    all[6..].copy_from_slice(&of_structure);
    all
}

/// Counts a cause that stands alone, and the value that it has.
fn count_alone(cause: usize, bytes: &[u8], at: usize, tally: &mut Tally) {
    let enabled = usize::from(cause == NUM_GROUP && bytes[7] >= 128);
    let place = cause + enabled + usize::from(cause == INDEX);
    tally.add(Group::MulticastCauses, place);
    match cause {
        6 => {
            let unlike = (bytes[0] ^ 0x12, bytes[1]);
            match unlike {
                (low, 0) if low.is_power_of_two() => tally.add(Group::MulticastIds, low.ilog2() as usize),
                (0, high) if high.is_power_of_two() => tally.add(Group::MulticastIds, 8 + high.ilog2() as usize),
                _ => tally.add(Group::MulticastIds, 16),
            }
        }
        7 => {
            let version = usize::from(bytes[2] % 16);
            tally.add(Group::MulticastVersions, version.saturating_sub(1));
        }
        8 => tally.add(Group::MulticastShort, (at - 0xFDC) / 4),
        NUM_GROUP => {
            let [max_group, num_group] = [4, 6].map(|place: usize| usize::from(bytes[place] % 64));
            let by_one = num_group == max_group + 1;
            tally.add_if(by_one, Group::MulticastOver, 2 * max_group + enabled);
        }
        INDEX => tally.add(Group::MulticastUnder, usize::from(bytes[8] % 64)),
        _ => {}
    }
}

/// Counts two causes that come together, with no other.
fn count_two(causes: &[bool; CAUSES], tally: &mut Tally) {
    if causes.iter().filter(|&&present| present).count() != 2 {
        return;
    }
    let place = pairs().position(|(first, second)| causes[first] && causes[second]);
    if let Some(place) = place {
        tally.add(Group::MulticastTogether, place);
    }
}

/// The pairs of causes that can be, the earlier one first.
fn pairs() -> impl Iterator<Item = (usize, usize)> {
    let all = OF_PAIRS
        .into_iter()
        .flat_map(|first| OF_PAIRS.map(|second| (first, second)));
    all.filter(|&pair| pair.0 < pair.1 && pair != NEVER)
}

#[cfg(test)]
mod tests {
    use super::pairs;

    #[test]
    fn there_are_27_pairs() {
        assert_eq!(pairs().count(), 27);
    }
}
