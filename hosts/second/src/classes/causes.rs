//! The causes for a refusal that a call of `serve` has, and the value of one that stands alone.

use super::doubled::{count_doubled, doubled_bits};
use super::edition::{count_bit_7, count_later, count_wrong_edition};
use super::group::Group;
use super::packet_causes::{length_field, packet_causes, wrong_attributes, wrong_last_enables, wrong_traffic_class};
use super::serve::ServeView;
use super::tally::Tally;
use crate::generate::ServeCase;

/// The places of the causes that request 6/13 adds: the sizes of the marks of both spaces, and doubly marked bits in
/// both.
const OF_MARKS: std::ops::RangeInclusive<u32> = 4..=7;
/// The places of the causes that request 9/13 adds: another edition, and bit 7 under edition 2.
const EDITION: u32 = 16;
const BIT_7: u32 = 20;
/// The places of some others.
const SHORT: u32 = 18;
const TYPE_CODE: u32 = 19;
/// The causes of 1 and of 2, a bit for each.
const BELOW_3: u32 = (1 << SHORT) - 1;
/// How many causes there are.
const CAUSES: u32 = 26;

/// One bit for each cause of the numbers 1 to 6, in the order of the group's names. Whether a space has doubly marked
/// bits was looked for before.
pub fn causes(case: &ServeCase, doubled: [bool; 2]) -> u32 {
    let (a, b) = (case.description.a, case.description.b);
    let board = [
        case.lengths[0] != 4096,
        case.lengths[1] != 4096,
        case.lengths[2] != 4096,
        case.lengths[3] != 4096,
        case.lengths[4] != 4096,
        case.lengths[5] != 4096,
        doubled[0],
        doubled[1],
        case.kept.captured != 0 && case.kept.device > 31,
        case.description.function > 7,
        a < 0x104,
        a > 0xFFC,
        a % 4 != 0,
        b < 0x00C,
        b > 0xFFC,
        b % 4 != 0,
        !matches!(case.description.edition, 1 | 2),
        case.reply_length < 16,
    ];
    let packet = packet_causes(&case.packet, case.description.edition == 2);
    board
        .into_iter()
        .chain(packet)
        .enumerate()
        .map(|(place, present)| u32::from(present) << place)
        .sum()
}

/// The number of the cause at a place of the group's names.
const fn number_of(cause: u32) -> u8 {
    match cause {
        0..=EDITION => 1,
        17 => 2,
        SHORT => 3,
        TYPE_CODE | BIT_7 => 4,
        21 => 5,
        _ => 6,
    }
}

/// Pairs of numbers whose causes can meet in one call, in the order of the group's names.
pub const PAIRS: [[u8; 2]; 12] = [
    [1, 2],
    [1, 3],
    [1, 4],
    [1, 5],
    [1, 6],
    [2, 3],
    [2, 4],
    [2, 5],
    [2, 6],
    [4, 5],
    [4, 6],
    [5, 6],
];

/// Counts a call by its causes. Where they do not tell the model's number, the run stops.
pub fn count_causes(view: &ServeView<'_>, number: u8, tally: &mut Tally) {
    let doubled = [false, true].map(|trusted| {
        let (rules, marks) = view.ruled(trusted);
        doubled_bits(rules, marks)
    });
    let causes = causes(view.case, [0, 1].map(|space: usize| !doubled[space].is_empty()));
    let lowest = causes.trailing_zeros();
    let lowest_number = if causes == 0 { 0 } else { number_of(lowest) };
    assert_eq!(lowest_number, number, "the model and the causes disagree on a call");
    count_first_byte(view.case, causes, tally);
    if causes & BELOW_3 == 1 << EDITION {
        tally.add(Group::WrongEditionLengths, view.case.packet.length);
    }
    if causes.is_power_of_two() {
        tally.add(Group::ServeCauses, lowest as usize);
        count_values(view, lowest, tally);
        if let space @ 0..=1 = lowest.wrapping_sub(6) as usize {
            count_doubled(view, space == 1, &doubled[space], tally);
        }
        return;
    }
    let numbers = (0..CAUSES).filter(|&cause| causes >> cause & 1 == 1).map(number_of);
    if let Some(second) = numbers.filter(|&other| other != number).min() {
        let pair = PAIRS.iter().position(|&pair| pair == [number, second]);
        tally.add(Group::ServeTogether, pair.expect("3 meets nothing that is higher"));
    }
    count_two(causes, tally);
    count_behind_bit_7(view.case, causes, tally);
}

/// Counts a call that has two causes and no other, one of which or both are of the marks or of request 9/13.
fn count_two(causes: u32, tally: &mut Tally) {
    if causes.count_ones() != 2 {
        return;
    }
    let (first, last) = (causes.trailing_zeros(), 31 - causes.leading_zeros());
    if OF_MARKS.contains(&first) || OF_MARKS.contains(&last) {
        tally.add(Group::MarksTogether, two_place(first, last));
    }
    if let Some(place) = edition_place(causes) {
        tally.add(Group::EditionTogether, place);
    }
}

/// The place of two causes among the 47 pairs with one that request 9/13 adds: the edition with each of 24 others, then
/// bit 7 with each of 23. Bit 7 is no cause with another edition, and is not looked for in a packet that is too short.
fn edition_place(causes: u32) -> Option<usize> {
    let (edition, bit_7, short) = (1 << EDITION, 1 << BIT_7, 1 << SHORT);
    let with_edition = !(edition | bit_7);
    let with_bit_7 = !(edition | bit_7 | short);
    let place = |others: u32, other: u32| (others & (other - 1)).count_ones() as usize;
    match causes {
        _ if causes & edition != 0 => Some(place(with_edition, causes & !edition)),
        _ if causes & bit_7 != 0 => Some(24 + place(with_bit_7, causes & !bit_7)),
        _ => None,
    }
}

/// Counts a call that is 4 for its bit 7 alone, and that has causes of 5, or of 6, and nothing else.
fn count_behind_bit_7(case: &ServeCase, causes: u32, tally: &mut Tally) {
    let others = causes & !(1 << BIT_7);
    if others == causes {
        return;
    }
    let [lowest, highest] = [others.trailing_zeros(), 31 - others.leading_zeros()].map(number_of);
    if lowest >= 5 && lowest == highest {
        count_later(case.packet.bytes[0], lowest, tally);
    }
}

/// Counts a call that has no fault but for its first byte: by that, in both editions.
fn count_first_byte(case: &ServeCase, causes: u32, tally: &mut Tally) {
    if causes & !(1 << TYPE_CODE | 1 << BIT_7) == 0 {
        let edition = case.description.edition as usize;
        tally.add(
            Group::FirstBytes,
            256 * (edition - 1) + usize::from(case.packet.bytes[0]),
        );
    }
}

/// The place of two causes, the earlier one first, among the 94 pairs with one of the marks.
fn two_place(first: u32, last: u32) -> usize {
    let pairs = (0..CAUSES).flat_map(|first| (first + 1..CAUSES).map(move |last| (first, last)));
    let mut with_marks = pairs.filter(|(first, last)| OF_MARKS.contains(first) || OF_MARKS.contains(last));
    let place = with_marks.position(|pair| pair == (first, last));
    place.expect("one of the two is of the marks")
}

/// The value of a fault that stands alone.
fn count_values(view: &ServeView<'_>, cause: u32, tally: &mut Tally) {
    let bytes = &view.case.packet.bytes;
    match cause {
        EDITION => count_wrong_edition(view.case, tally),
        BIT_7 => count_bit_7(view, tally),
        22 => tally.add(Group::FieldValues, wrong_traffic_class(bytes)),
        23 => tally.add(Group::FieldValues, wrong_attributes(bytes)),
        24 => tally.add(Group::FieldValues, wrong_last_enables(bytes)),
        25 => tally.add(Group::LengthValues, length_field(bytes).saturating_sub(1)),
        _ => {}
    }
}

#[cfg(test)]
mod tests {
    use super::{BIT_7, CAUSES, EDITION, SHORT, edition_place, two_place};

    #[test]
    fn there_are_94_pairs_with_one_of_the_marks() {
        assert_eq!(two_place(0, 4), 0);
        assert_eq!(two_place(7, CAUSES - 1), 93);
    }

    #[test]
    fn there_are_47_pairs_with_one_of_the_editions() {
        let mut met = Vec::new();
        for other in (0..CAUSES).filter(|other| ![EDITION, BIT_7].contains(other)) {
            met.extend(edition_place(1 << EDITION | 1 << other));
        }
        for other in (0..CAUSES).filter(|other| ![EDITION, BIT_7, SHORT].contains(other)) {
            met.extend(edition_place(1 << BIT_7 | 1 << other));
        }
        assert!(met.into_iter().eq(0..47));
        assert_eq!(edition_place(0b11), None);
    }
}
