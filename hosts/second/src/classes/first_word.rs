//! The classes of the word at 100h where it is not zero: each bit of it alone, and null capabilities there, by what
//! they hold and by where they lead.

use super::chain::Ending;
use super::group::Group;
use super::header::Header;
use super::tally::Tally;

/// Counts an extended list by the header at 100h.
pub fn count(header: Header, ending: Ending, maximum: usize, tally: &mut Tally) {
    let Header { id, version, pointer } = header;
    let word = (pointer << 20) + (version << 16) + id;
    if word.is_power_of_two() {
        tally.add(Group::FirstBits, word.ilog2() as usize);
    }
    match (id, pointer) {
        (0, 0..=3) => tally.add(Group::FirstFields, 16 * pointer + version - 1),
        (0, _) => tally.add(Group::FirstNulls, null_place(version, ending, maximum)),
        _ => {}
    }
}

/// A pointer alone, or a version too; and seven ways that a pointer from 100h leads.
const fn null_place(version: usize, ending: Ending, maximum: usize) -> usize {
    let way = match ending {
        Ending::End { count } if count < maximum => 0,
        Ending::End { .. } => 1,
        Ending::Loop { tail: 0, length: 1 } => 2,
        Ending::Loop { tail: 0, .. } => 3,
        Ending::Loop { .. } => 4,
        Ending::Below { steps: 1, .. } => 5,
        Ending::Below { .. } => 6,
    };
    if version == 0 { way } else { 7 + way }
}
