//! What broke a list, from where its pointers lead, and the classes of the place that is told.

use super::chain::{Chain, Ending, Pointers, offset};
use super::group::Group;
use super::tally::Tally;
use crate::generate::{SHAPES, SPACE_BYTES, Shape};
use crate::model::List;

/// Request 3/13's number, "11 for a pointer below the floor, 12 for a pointer to an offset already in the chain", and
/// what is known of that pointer.
#[derive(Clone, Copy, Debug, PartialEq, Eq)]
pub struct Fault {
    pub number: u8,
    /// "the offset of the structure holding that pointer, or 0 where the start itself is at fault"
    pub place: usize,
    /// The offset that it leads to.
    pub to: usize,
}

impl Fault {
    /// The fault of a list; none where it has an end, or is called empty, "whatever its pointers hold".
    ///
    /// In a loop the pointer at fault is the first one back, which the last header of the loop holds, after the tail.
    /// Below the floor it is the last one that was followed.
    pub fn of(pointers: Pointers<'_>, chain: &Chain) -> Option<Self> {
        let (number, headers) = match chain.ending {
            _ if pointers.are_declared_empty() => return None,
            Ending::End { .. } => return None,
            Ending::Below { steps, .. } => (11, steps),
            Ending::Loop { tail, length } => (12, tail + length),
        };
        Some(Self {
            number,
            place: pointers.holder(headers),
            to: offset(chain.last),
        })
    }

    /// The fault that a list would have if its space were cut, or filled up with zeros, to the right size.
    pub fn if_whole(shape: Shape, space: &[u8]) -> Option<Self> {
        let mut whole = space.to_vec();
        whole.resize(SPACE_BYTES, 0);
        let pointers = Pointers::new(shape, &whole)?;
        Self::of(pointers, &pointers.follow())
    }
}

/// Counts a broken list by the place that is told, and by where the pointer at fault leads.
pub fn count(shape: Shape, fault: Fault, ending: Ending, tally: &mut Tally) {
    let Fault { place, to, .. } = fault;
    count_ends(shape, fault, tally);
    match ending {
        Ending::Loop { tail, length } => {
            tally.add(Group::AgainPlaces, word_class(shape, place));
            tally.add(Group::AgainOffsets, word_class(shape, to));
            let first = 5 * shape.place();
            tally.add_if(to < place, Group::LoopPlaces, first);
            tally.add_if(to == place, Group::LoopPlaces, first + 1);
            tally.add_if(to > place, Group::LoopPlaces, first + 2);
            tally.add_if(tail == 0 && length > 1, Group::LoopPlaces, first + 3);
            tally.add_if(tail > 0 && length > 1, Group::LoopPlaces, first + 4);
        }
        _ if place == 0 => tally.add(Group::StartsBelow, start_class(shape, to)),
        _ => {
            tally.add(Group::BelowPlaces, word_class(shape, place));
            tally.add(Group::BelowOffsets, below_class(shape, to));
        }
    }
}

/// Counts the lowest and the highest place of a structure, each with 11 and with 12.
fn count_ends(shape: Shape, fault: Fault, tally: &mut Tally) {
    let first = 4 * shape.place() + if fault.number == 11 { 0 } else { 2 };
    tally.add_if(fault.place == shape.floor, Group::EndPlaces, first);
    tally.add_if(fault.place == shape.highest(), Group::EndPlaces, first + 1);
}

/// The class of an offset from the floor on, after those of the lists before.
fn word_class(shape: Shape, at: usize) -> usize {
    let before: usize = SHAPES[..shape.place()].iter().map(|shape| shape.maximum).sum();
    before + (at - shape.floor) / 4
}

/// The class of an offset below the floor other than 0, which is an end, after those of the lists before.
fn below_class(shape: Shape, at: usize) -> usize {
    let before: usize = SHAPES[..shape.place()].iter().map(|shape| shape.floor / 4 - 1).sum();
    before + at / 4 - 1
}

/// The class of such an offset that a list starts with: fifteen of the compatible list, and one of the trusted list.
const fn start_class(shape: Shape, at: usize) -> usize {
    match shape.list {
        List::Trusted => 15,
        _ => at / 4 - 1,
    }
}

#[cfg(test)]
mod tests {
    use super::{Fault, Pointers};
    use crate::generate::SHAPES;

    /// The fault of an extended list by the next pointers of some headers.
    fn fault(nexts: &[(usize, u16)]) -> Option<Fault> {
        let mut space = [0; 4096];
        space[0x100] = 1;
        for &(at, next) in nexts {
            space[at + 2..at + 4].copy_from_slice(&(next * 16).to_le_bytes());
        }
        let pointers = Pointers::new(SHAPES[1], &space).expect("a whole space");
        Fault::of(pointers, &pointers.follow())
    }

    /// Document 01's trap among them: "100h to 140h to 180h to 140h".
    #[test]
    fn the_structure_that_holds_the_first_pointer_back_or_below() {
        let told = |nexts: &[_]| fault(nexts).map(|fault| (fault.number, fault.place, fault.to));
        assert_eq!(told(&[(0x100, 0x140), (0x140, 0x180)]), None);
        assert_eq!(told(&[(0x100, 0x103)]), Some((12, 0x100, 0x100)));
        assert_eq!(
            told(&[(0x100, 0x140), (0x140, 0x180), (0x180, 0x140)]),
            Some((12, 0x180, 0x140))
        );
        assert_eq!(
            told(&[(0x100, 0x140), (0x140, 0x180), (0x180, 0x101)]),
            Some((12, 0x180, 0x100))
        );
        assert_eq!(told(&[(0x100, 0x0FF)]), Some((11, 0x100, 0x0FC)));
        assert_eq!(told(&[(0x100, 0x140), (0x140, 0x004)]), Some((11, 0x140, 0x004)));
    }
}
