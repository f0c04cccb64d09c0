//! The classes of headers whose ID is 0: in the chains of all three lists, and in the extended list also where it is
//! broken. No walk may end at them or leave them out.

use super::chain::{Ending, Pointers};
use super::group::Group;
use super::header::Header;
use super::tally::Tally;
use crate::generate::Shape;
use crate::model::List;

/// The bits of a set of places in a chain.
const FIRST: usize = 1;
const BETWEEN: usize = 2;
const LAST: usize = 4;

/// Counts a walk by its headers whose ID is 0.
pub fn count(shape: Shape, pointers: Pointers<'_>, ending: Ending, tally: &mut Tally) {
    match (shape.list, ending) {
        (_, Ending::End { count }) => count_chain(shape, pointers, count, tally),
        (List::Extended, Ending::Loop { tail, length }) => count_loop(pointers, tail, length, tally),
        (List::Extended, Ending::Below { steps, .. }) => {
            let last = nulls(pointers, steps).any(|(place, _)| place > 0 && place + 1 == steps);
            tally.add_if(last, Group::NullForms, 9);
        }
        _ => {}
    }
}

/// The headers with an ID of 0 among the first so many that are met, with their places.
fn nulls(pointers: Pointers<'_>, headers: usize) -> impl Iterator<Item = (usize, Header)> {
    let met = pointers.headers().take(headers).enumerate();
    met.filter(|(_, header)| header.id == 0)
}

/// Chains of two headers or more by the set of their places, and headers without anything in them, which are last ones.
fn count_chain(shape: Shape, pointers: Pointers<'_>, count: usize, tally: &mut Tally) {
    let (mut all, mut set, mut zero) = (0, 0, false);
    for (place, header) in nulls(pointers, count) {
        all += 1;
        zero |= header.is_zero();
        set |= match place {
            0 => FIRST,
            _ if place + 1 == count => LAST,
            _ => BETWEEN,
        };
    }
    let more = count > 1;
    if more && set != 0 {
        tally.add(Group::NullPlaces, 7 * shape.place() + set - 1);
    }
    match shape.list {
        List::Compatible => tally.add_if(zero, Group::NullForms, usize::from(more)),
        List::Trusted => tally.add_if(zero, Group::NullForms, 2 + usize::from(more)),
        List::Extended => {
            tally.add_if(zero, Group::NullForms, 4);
            tally.add_if(more && all == count, Group::NullForms, 5);
        }
    }
}

/// Loops of the extended list, by where headers other than that at 100h have an ID of 0.
fn count_loop(pointers: Pointers<'_>, tail: usize, length: usize, tally: &mut Tally) {
    let [mut before, mut inside, mut closing] = [false; 3];
    for (place, _) in nulls(pointers, tail + length).filter(|&(place, _)| place > 0) {
        before |= place < tail;
        inside |= place >= tail;
        closing |= place + 1 == tail + length;
    }
    tally.add_if(before, Group::NullForms, 6);
    tally.add_if(inside, Group::NullForms, 7);
    tally.add_if(closing, Group::NullForms, 8);
}
