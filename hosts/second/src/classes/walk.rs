//! The classes of a walk, from its space, its room and the model's answer. Where the sizes and the pointers call for
//! another answer, the run stops.

use thawribbon::raw::Walked;

use super::chain::{Chain, Ending, Pointers};
use super::fault::{self, Fault};
use super::group::Group;
use super::tally::Tally;
use super::turn::turn_place;
use super::{elsewhere, first_word, nulls};
use crate::generate::{NAMED_LENGTHS, Shape, named_length_place};
use crate::model::List;

/// Counts a walk in all its classes.
pub fn count(shape: Shape, space: &[u8], room_length: usize, walked: Walked, tally: &mut Tally) {
    count_sizes(shape, space.len(), room_length, tally);
    let small_room = room_length < shape.maximum;
    let Some(pointers) = Pointers::new(shape, space) else {
        let fault = Fault::if_whole(shape, space);
        tally.add_if(small_room, Group::WalkTogether, 5 * shape.place());
        count_together(shape, 1, fault, tally);
        return count_answer(shape, refused(1, 0), walked, tally);
    };
    let chain = pointers.follow();
    let fault = Fault::of(pointers, &chain);
    if small_room {
        count_together(shape, 3, fault, tally);
        return count_answer(shape, refused(2, 0), walked, tally);
    }
    let empty = pointers.are_declared_empty();
    let due = match (fault, chain.ending) {
        (Some(fault), _) => refused(fault.number, fault.place),
        (None, Ending::End { count }) if !empty => served(count),
        (None, _) => served(0),
    };
    count_answer(shape, due, walked, tally);
    if empty {
        return count_empty(shape, pointers, &chain, tally);
    }
    count_ending(shape, &chain, tally);
    count_headers(shape, pointers, chain.ending, tally);
    if let Some(fault) = fault {
        fault::count(shape, fault, chain.ending, tally);
    }
}

const fn served(count: usize) -> Walked {
    Walked {
        count,
        number: 0,
        place: 0,
    }
}

/// A refusal; only 11 and 12 tell a place other than 0.
const fn refused(number: u8, place: usize) -> Walked {
    Walked {
        count: 0,
        number,
        place: place as u16,
    }
}

/// Counts a walk that is refused with 1 or 2 where its list has a fault too. With 11 is the class given, with 12 the
/// next one.
fn count_together(shape: Shape, class: usize, fault: Option<Fault>, tally: &mut Tally) {
    if let Some(fault) = fault {
        let other = usize::from(fault.number == 12);
        tally.add(Group::WalkTogether, 5 * shape.place() + class + other);
    }
}

/// Counts a walk by its number. Its answer must be the one that is due, with its place.
fn count_answer(shape: Shape, due: Walked, walked: Walked, tally: &mut Tally) {
    let list = shape.list;
    assert_eq!(due, walked, "the model and the pointers disagree on a {list:?} list");
    let answer = [0, 1, 2, 11, 12].iter().position(|&number| number == due.number);
    tally.add(
        Group::WalkAnswers,
        5 * shape.place() + answer.expect("a walk answers 0, 1, 2, 11 or 12"),
    );
}

fn count_sizes(shape: Shape, space_length: usize, room_length: usize, tally: &mut Tally) {
    if let Some(length) = named_length_place(space_length) {
        tally.add(Group::SpaceLengths, (4 + shape.place()) * NAMED_LENGTHS + length);
    }
    if room_length == 0 || room_length >= shape.maximum - 1 {
        let class = if room_length == 0 {
            0
        } else {
            (room_length + 2 - shape.maximum).min(4)
        };
        tally.add(Group::Rooms, 5 * shape.place() + class);
    }
}

/// Counts a list that is called empty: the compatible one by what its pointers hold, and the extended one by whether
/// there is anything where the next header could lie.
fn count_empty(shape: Shape, pointers: Pointers<'_>, chain: &Chain, tally: &mut Tally) {
    count_chain(shape, 0, tally);
    if shape.list == List::Extended {
        let nothing_behind = pointers.header(0x104).is_zero();
        tally.add(Group::DeclaredEmpty, 4 + usize::from(nothing_behind));
        return;
    }
    let class = match chain.ending {
        Ending::End { .. } if chain.start < 4 => return,
        Ending::End { .. } => 0,
        Ending::Loop { .. } => 1,
        Ending::Below { steps: 0, .. } => 2,
        Ending::Below { .. } => 3,
    };
    tally.add(Group::DeclaredEmpty, class);
}

fn count_ending(shape: Shape, chain: &Chain, tally: &mut Tally) {
    count_turn(shape, chain.ending, tally);
    match chain.ending {
        Ending::End { count } => {
            count_chain(shape, count, tally);
            count_bottom_bits(shape, chain, count, tally);
        }
        Ending::Loop { tail, length } => {
            count_loop(shape, tail, length, tally);
            tally.add_if(chain.last % 4 != 0, Group::BottomBits, 16 + shape.place());
        }
        Ending::Below { steps, offset } => {
            count_below(shape, steps, offset, tally);
            let start = if shape.list == List::Compatible { 22 } else { 23 };
            let class = if steps == 0 { start } else { 19 + shape.place() };
            tally.add_if(chain.last % 4 != 0, Group::BottomBits, class);
        }
    }
}

/// Counts a list that is not called empty by what its headers hold.
fn count_headers(shape: Shape, pointers: Pointers<'_>, ending: Ending, tally: &mut Tally) {
    if shape.list == List::Extended {
        first_word::count(pointers.header(0x100), ending, shape.maximum, tally);
    }
    nulls::count(shape, pointers, ending, tally);
    elsewhere::count(shape, pointers, ending, tally);
}

/// Counts where the last header points.
fn count_turn(shape: Shape, ending: Ending, tally: &mut Tally) {
    let group = match shape.list {
        List::Compatible => Group::CompatibleTurns,
        List::Extended => Group::ExtendedTurns,
        List::Trusted => Group::TrustedTurns,
    };
    if let Some(place) = turn_place(ending, shape.maximum) {
        tally.add(group, place);
    }
}

/// A tail of 0, 1, 2 to 15, up to half the maximum, or more; a loop of 1, 2, 3, 4 to 15, up to half the maximum, or
/// more. Both cannot be more than half, so the last of the thirty pairs is not there.
fn count_loop(shape: Shape, tail: usize, length: usize, tally: &mut Tally) {
    let half = shape.maximum / 2;
    let tails = match tail {
        0 | 1 => tail,
        2..=15 => 2,
        _ => 3 + usize::from(tail > half),
    };
    let lengths = match length {
        1..=3 => length - 1,
        4..=15 => 3,
        _ => 4 + usize::from(length > half),
    };
    tally.add(Group::Loops, 29 * shape.place() + 6 * tails + lengths);
}

fn count_chain(shape: Shape, count: usize, tally: &mut Tally) {
    let group = match shape.list {
        List::Compatible => Group::CompatibleChains,
        List::Extended => Group::ExtendedChains,
        List::Trusted => Group::TrustedChains,
    };
    tally.add(group, count);
}

/// After 0, 1, 2 to 9, or 10 steps and more; to the offset just below the floor, or to a lower one. The extended list
/// cannot start below its floor, and only one offset lies below the trusted list's.
fn count_below(shape: Shape, steps: usize, offset: usize, tally: &mut Tally) {
    let when = match steps {
        0 | 1 => steps,
        2..=9 => 2,
        _ => 3,
    };
    let lower = usize::from(offset != shape.floor - 4);
    match shape.list {
        List::Compatible => tally.add(Group::CompatibleFloor, 2 * when + lower),
        List::Extended => tally.add(Group::ExtendedFloor, 2 * (when - 1) + lower),
        List::Trusted => tally.add(Group::TrustedFloor, when),
    }
}

fn count_bottom_bits(shape: Shape, chain: &Chain, count: usize, tally: &mut Tally) {
    let first = [0, 6, 10][shape.place()];
    for bits in 1..=3 {
        tally.add_if(chain.bottom_bits >> bits & 1 == 1, Group::BottomBits, first + bits - 1);
    }
    tally.add_if(count > 0 && chain.last != 0, Group::BottomBits, first + 3);
    if shape.list != List::Extended {
        tally.add_if(count > 0 && chain.start % 4 != 0, Group::BottomBits, first + 4);
        tally.add_if(count == 0 && chain.start != 0, Group::BottomBits, first + 5);
    }
}

#[cfg(test)]
mod tests {
    use super::{Tally, count, refused};
    use crate::generate::SHAPES;

    /// Counts a walk of an extended list in which the header at 100h points to that at 140h, and that to itself.
    fn count_loop_at_140h(number: u8, place: usize) {
        let mut space = [0; 4096];
        space[0x102..0x104].copy_from_slice(&[0x00, 0x14]);
        space[0x142..0x144].copy_from_slice(&[0x00, 0x14]);
        count(SHAPES[1], &space, 960, refused(number, place), &mut Tally::new());
    }

    #[test]
    fn the_number_and_the_place_that_the_pointers_call_for_are_counted() {
        count_loop_at_140h(12, 0x140);
    }

    #[test]
    #[should_panic(expected = "the model and the pointers disagree")]
    fn another_number_stops_the_run() {
        count_loop_at_140h(11, 0x140);
    }

    #[test]
    #[should_panic(expected = "the model and the pointers disagree")]
    fn another_place_stops_the_run() {
        count_loop_at_140h(12, 0x100);
    }
}
