//! What a packet may be answered, by its type code: sets of answers, and the place of one among those of several sets.

/// A set of answers, a bit for each: success, UR, and the numbers 1 to 6.
pub type Answers = u8;

/// The type codes, and all others as one.
pub const SORTS: usize = 7;

/// What a request may be answered that can succeed, what one of Type 1 may be, and a packet that is 4 if it is nothing
/// lower. A board that is badly described is among them.
pub const SERVED: Answers = 0b1101_1111;
pub const TYPE_1: Answers = 0b1101_1110;
pub const REFUSED: Answers = 0b0011_1100;

/// What the six type codes and others may be answered.
pub const OF_SORTS: [Answers; SORTS] = [SERVED, SERVED, TYPE_1, TYPE_1, SERVED, SERVED, REFUSED];

/// The sets without 1: what a board that is well described may answer.
pub const fn well_described(mut sets: [Answers; SORTS]) -> [Answers; SORTS] {
    let mut sort = 0;
    while sort < SORTS {
        sets[sort] &= !0b0000_0100;
        sort += 1;
    }
    sets
}

/// How many answers there are in several sets.
pub const fn count(sets: &[Answers]) -> usize {
    let (mut answers, mut place) = (0, 0);
    while place < sets.len() {
        answers += sets[place].count_ones() as usize;
        place += 1;
    }
    answers
}

/// The answer by a call's number, and by the status of its reply where that is 0.
pub fn answer(number: u8, reply: &[u8]) -> u32 {
    match number {
        0 => u32::from(reply[6] == 0x20),
        number => 1 + u32::from(number),
    }
}

/// The place of an answer among those of several sets, if it is in the set at this place.
pub fn place(sets: &[Answers], at: usize, answer: u32) -> Option<usize> {
    let before = count(&sets[..at]) + (sets[at] & ((1 << answer) - 1)).count_ones() as usize;
    (sets[at] >> answer & 1 == 1).then_some(before)
}

#[cfg(test)]
mod tests {
    use super::{OF_SORTS, REFUSED, answer, count, place, well_described};

    #[test]
    fn every_answer_has_its_place() {
        for sets in [OF_SORTS, well_described(OF_SORTS)] {
            let all = (0..sets.len()).flat_map(|at| (0..8).filter_map(move |answer| place(&sets, at, answer)));
            assert!(all.eq(0..count(&sets)));
        }
    }

    #[test]
    fn what_is_refused_has_a_number_from_1_to_4() {
        let numbers = (0..8)
            .filter(|answer| REFUSED >> answer & 1 == 1)
            .map(|answer| answer - 1);
        assert!(numbers.eq(1..5));
        assert_eq!([0, 1, 6].map(|number| answer(number, &[0x20; 7])), [1, 2, 7]);
        assert_eq!(answer(0, &[0; 7]), 0);
    }
}
