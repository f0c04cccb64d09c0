//! Why the records of a list are no reading's, by bounds of their numbers. The model has no such table.

use thawribbon::raw::Groups;

use super::group::Group;
use super::tally::Tally;

/// How many causes a record can have.
pub const RECORD_CAUSES: usize = 6;
/// Their places.
const MAX_GROUP: usize = 0;
const NUM_GROUP: usize = 1;
const ENABLE: usize = 2;
const INDEX_OVER: usize = 3;
const INDEX_UNDER: usize = 4;
const BASE: usize = 5;

/// The causes of one record.
const fn causes(record: &Groups) -> [bool; RECORD_CAUSES] {
    [
        record.max_group > 63,
        record.num_group > record.max_group,
        record.enable > 1,
        record.index > 63,
        record.enable == 1 && record.index < 12,
        record.base % 4096 != 0,
    ]
}

/// The causes of all records of a list, each with the place of its record.
pub fn record_causes(ports: &[Groups]) -> Vec<(usize, usize)> {
    let places = ports.iter().enumerate();
    let of_each = places.flat_map(|(place, record)| {
        let present = causes(record).into_iter().enumerate().filter(|&(_, present)| present);
        present.map(move |(cause, _)| (place, cause))
    });
    of_each.collect()
}

/// How many bits there are that Max Group, Num Group, Enable, index and base cannot have.
const BITS_BEYOND: [usize; 5] = [58, 58, 63, 58, 12];

/// The causes that a record may have with Enable clear and with Enable set.
const WITH_ANY_ENABLE: [usize; 4] = [MAX_GROUP, NUM_GROUP, INDEX_OVER, BASE];

/// Counts a cause that stands alone, and is none of Enable, by Enable.
pub fn count_enable(record: &Groups, cause: usize, tally: &mut Tally) {
    if let Some(place) = WITH_ANY_ENABLE.iter().position(|&other| other == cause) {
        tally.add(Group::JudgeRecordEnables, 2 * place + record.enable as usize);
    }
}

/// Counts the value of a cause that stands alone: one bit that the number cannot have, a number just over its bound, the
/// index that is too low, or the Max Group that is exceeded by one.
pub fn count_value(record: &Groups, cause: usize, tally: &mut Tally) {
    let (number, beyond) = match cause {
        MAX_GROUP => (0, record.max_group >> 6),
        NUM_GROUP => (1, record.num_group >> 6),
        ENABLE => (2, record.enable >> 1),
        INDEX_OVER => (3, record.index >> 6),
        INDEX_UNDER => return tally.add(Group::JudgeRecordEdges, record.index as usize),
        _ => (4, record.base & 0xFFF),
    };
    let before: usize = BITS_BEYOND[..number].iter().sum();
    if beyond.is_power_of_two() {
        tally.add(Group::JudgeRecordBits, before + beyond.ilog2() as usize);
    }
    let just_over = match cause {
        NUM_GROUP if record.num_group == record.max_group + 1 => record.max_group as usize,
        MAX_GROUP if record.max_group == 64 => 64,
        ENABLE if record.enable == 2 => 65,
        INDEX_OVER if record.index == 64 => 66,
        _ => return,
    };
    tally.add(Group::JudgeRecordEdges, 12 + just_over);
}
