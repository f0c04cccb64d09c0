//! Causes that stand alone, the first of several, and those that the offsets of both records share.

/// The place of the only cause, where there is one and no other.
pub fn only(causes: &[bool]) -> Option<usize> {
    let mut present = causes.iter().enumerate().filter(|(_, present)| **present);
    match (present.next(), present.next()) {
        (Some((place, _)), None) => Some(place),
        _ => None,
    }
}

/// The number of the first part that has a cause, in document 01's order; 0 where none has.
pub fn first_told(parts: &[(u8, &[bool])]) -> u8 {
    let first = parts.iter().find(|(_, causes)| causes.contains(&true));
    first.map_or(0, |(number, _)| *number)
}

/// The causes of 1 for a record, in the order of the groups' names: the space's size; an offset that is not a multiple
/// of 4; one that is below; one that is above, near 2^32, near 2^64.
pub fn offset_causes(space: &[u8], at: usize, lowest: usize, highest: usize) -> [bool; 6] {
    const NEAR: usize = 0x1000;
    let above = at > highest;
    let near_32 = at.abs_diff(1 << 32) <= NEAR;
    let near_64 = at >= usize::MAX - NEAR;
    [
        space.len() != 4096,
        at % 4 != 0,
        at < lowest,
        above && !near_32 && !near_64,
        above && near_32,
        above && near_64,
    ]
}
