//! The causes for a refusal that a call of `serve_pair` has: those of each function, and those of both.

use super::causes::{PAIRS, causes};
use super::doubled::doubled_bits;
use super::duo::{DuoView, named};
use super::edition::code_place;
use super::group::Group;
use super::tally::Tally;
use crate::generate::{Packet, ServeCase};

/// How many causes a function has by itself, and where those begin that both have, in the order of `serve`'s.
const OF_ONE: u32 = 16;
/// The places of the others.
const EQUAL: u32 = 2 * OF_ONE;
const EDITION: u32 = EQUAL + 1;
const REPLY: u32 = EDITION + 1;
const SHORT: u32 = REPLY + 1;
const TYPE_CODE: u32 = SHORT + 1;
const BIT_7: u32 = TYPE_CODE + 1;
const PACKET_LENGTH: u32 = BIT_7 + 1;
/// How many there are.
const CAUSES: u32 = PACKET_LENGTH + 5;

/// The number of the cause at a place of the group's names.
const fn number_of(cause: u32) -> u8 {
    match cause {
        0..=EDITION => 1,
        REPLY => 2,
        SHORT => 3,
        TYPE_CODE | BIT_7 => 4,
        PACKET_LENGTH => 5,
        _ => 6,
    }
}

/// One bit for each cause, in the order of the group's names, by the causes that each function would have alone.
fn both(primary: u32, alternate: u32, equal: bool) -> u64 {
    const OWN: u32 = (1 << OF_ONE) - 1;
    let shared = u64::from((primary | alternate) >> OF_ONE);
    u64::from(primary & OWN) | u64::from(alternate & OWN) << OF_ONE | u64::from(equal) << EQUAL | shared << EDITION
}

/// Counts a call by its causes. Where they do not tell the model's number, the run stops.
pub fn count_causes(view: &DuoView<'_>, tally: &mut Tally) {
    let doubled = view.sides.map(|side| {
        [false, true].map(|trusted| {
            let [rules, marks] = side.ruled(trusted);
            doubled_bits(rules, marks)
        })
    });
    let [primary, alternate] = [0, 1].map(|side: usize| {
        let has_some = [0, 1].map(|space: usize| !doubled[side][space].is_empty());
        causes(&view.case.sides[side], has_some)
    });
    let numbers = view.case.sides.map(|side| side.description.function);
    let causes = both(primary, alternate, numbers[0] == numbers[1]);
    let lowest = causes.trailing_zeros();
    let number = if causes == 0 { 0 } else { number_of(lowest) };
    assert_eq!(
        number, view.number,
        "the model and the causes disagree on two functions"
    );
    if causes.is_power_of_two() {
        tally.add(Group::DuoCauses, lowest as usize);
        count_alone(view.case.shared(), lowest, numbers, tally);
        if let 6 | 7 | 22 | 23 = lowest {
            let (side, space) = (lowest / OF_ONE, lowest % OF_ONE - 6);
            let bits = &doubled[side as usize][space as usize];
            count_doubled(view.case.shared(), (2 * side + space) as usize, bits, numbers, tally);
        }
    } else {
        count_together(causes, number, tally);
    }
}

/// Whom the packet names, 2 where it is neither or where there is no byte 9.
fn named_by(packet: &Packet, numbers: [u8; 2]) -> usize {
    match packet.as_slice().get(9) {
        Some(&ninth) => named(ninth, numbers),
        None => 2,
    }
}

/// Counts a cause that stands alone by whom the packet names, and by whether it is of Type 0, of Type 1 or trusted where it is
/// bit 7, 5 or 6.
fn count_alone(case: &ServeCase, cause: u32, numbers: [u8; 2], tally: &mut Tally) {
    let name = named_by(&case.packet, numbers);
    let code = code_place(case.packet.bytes[0]);
    if cause == EQUAL {
        let is_named = usize::from(name != 2);
        tally.add(Group::DuoEqual, 6 * is_named + code);
        return tally.add(Group::DuoEqual, 12 + usize::from(numbers[0]));
    }
    let place = if cause < EQUAL { cause } else { cause - 1 } as usize;
    tally.add(Group::DuoNamed, 3 * place + name);
    let number = number_of(cause);
    if number >= 3 {
        let edition = case.description.edition as usize - 1;
        tally.add(Group::DuoFaults, 12 * edition + 3 * (usize::from(number) - 3) + name);
    }
    let kind = match number {
        4 if cause == BIT_7 => 0,
        5 => 1,
        6 => 2,
        _ => return,
    };
    tally.add(Group::DuoFaultWays, 9 * kind + 3 * (code / 2) + name);
}

/// Counts one doubly marked bit that stands alone: by where it lies in one of the four spaces, and by the packet.
fn count_doubled(case: &ServeCase, space: usize, bits: &[usize], numbers: [u8; 2], tally: &mut Tally) {
    let [bit] = *bits else {
        return;
    };
    tally.add(Group::DuoDoubledPages, 16 * space + bit / 8 / 256);
    tally.add(Group::DuoDoubledBits, 32 * space + bit % 32);
    let (code, name) = (code_place(case.packet.bytes[0]), named_by(&case.packet, numbers));
    tally.add(Group::DuoDoubledKinds, 18 * space + 3 * code + name);
}

/// Counts causes of two numbers, and two causes alone.
fn count_together(causes: u64, number: u8, tally: &mut Tally) {
    if causes == 0 {
        return;
    }
    let numbers = (0..CAUSES).filter(|&cause| causes >> cause & 1 == 1).map(number_of);
    if let Some(second) = numbers.filter(|&other| other != number).min() {
        let pair = PAIRS.iter().position(|&pair| pair == [number, second]);
        tally.add(Group::DuoTogether, pair.expect("3 meets nothing that is higher"));
    }
    if causes.count_ones() == 2 {
        let [first, last] = [causes.trailing_zeros(), 63 - causes.leading_zeros()];
        if let Some(place) = two_place(first, last) {
            tally.add(Group::DuoTogether, PAIRS.len() + place);
        }
    }
}

/// The place of two causes, the earlier one first, among those that are counted as two.
fn two_place(first: u32, last: u32) -> Option<usize> {
    let sort = |cause| match cause {
        0..OF_ONE => 0,
        OF_ONE..EQUAL => 1,
        EQUAL => 2,
        EDITION => 3,
        _ => 4,
    };
    match (sort(first), sort(last)) {
        (0, 1) => Some(0),
        (0, 2) => Some(1),
        (1, 2) => Some(2),
        (2, 3) => Some(3),
        (0, 3) => Some(4),
        (1, 3) => Some(5),
        (2, 4) => Some(6 + usize::from(number_of(last)) - 2),
        _ => None,
    }
}

#[cfg(test)]
mod tests {
    use super::super::duo_names::{DUO_CAUSES, DUO_TOGETHER};
    use super::{BIT_7, CAUSES, EDITION, EQUAL, PAIRS, REPLY, SHORT, TYPE_CODE, both, number_of, two_place};

    #[test]
    fn each_cause_has_its_name() {
        assert_eq!(DUO_CAUSES.len(), CAUSES as usize);
        for (cause, name) in [
            (9, "primary, function over 7"),
            (25, "alternate, function over 7"),
            (EQUAL, "equal numbers"),
            (EDITION, "edition neither 1 nor 2"),
            (REPLY, "reply under 16"),
            (SHORT, "packet under 12"),
            (TYPE_CODE, "type code"),
            (BIT_7, "bit 7 under edition 2"),
            (CAUSES - 1, "Length"),
        ] {
            assert_eq!(DUO_CAUSES[cause as usize], name);
        }
    }

    #[test]
    fn the_causes_of_each_function_and_of_both_are_put_together() {
        assert_eq!(both(0, 0, false), 0);
        assert_eq!(both(1 << 9, 0, false), 1 << 9);
        assert_eq!(both(0, 1 << 9, false), 1 << 25);
        assert_eq!(both(0, 0, true), 1 << EQUAL);
        for (of_serve, cause, number) in [
            (16, EDITION, 1),
            (17, REPLY, 2),
            (18, SHORT, 3),
            (20, BIT_7, 4),
            (21, 38, 5),
            (25, 42, 6),
        ] {
            assert_eq!(both(1 << of_serve, 1 << of_serve, false), 1 << cause);
            assert_eq!(number_of(cause), number);
        }
    }

    #[test]
    fn two_causes_have_their_place() {
        let mut places: Vec<usize> = (0..CAUSES)
            .flat_map(|first| (first + 1..CAUSES).filter_map(move |last| two_place(first, last)))
            .collect();
        places.sort_unstable();
        places.dedup();
        assert!(places.into_iter().eq(0..DUO_TOGETHER.len() - PAIRS.len()));
    }
}
