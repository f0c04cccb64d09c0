//! The classes of a call of `route`, from its inputs and the model's answer.

use thawribbon::raw::Routed;

use super::departure::Departure;
use super::group::Group;
use super::port_list::{PortList, Verdict};
use super::route_alone::count_alone;
use super::route_names::ListShape;
use super::routed::{count_leaves, count_unsupported};
use super::stages::{Stage, stages_of, together};
use super::tally::Tally;
use crate::generate::RouteCase;

/// A call of `route` and what the model made of it. The buffer is as lent.
pub struct RouteView<'call> {
    pub case: &'call RouteCase,
    pub routed: Routed,
    pub leaving: &'call [u8],
}

/// Counts a call in all its classes. Where its inputs call for another answer than the model gave, the run stops.
pub fn count(view: &RouteView<'_>, tally: &mut Tally) {
    let (case, routed) = (view.case, view.routed);
    let list = PortList::read(&case.ports);
    let stages = stages_of(case, &list);
    let number = stages.first().map_or(0, |stage| stage.number());
    let leaves = stages.is_empty();
    assert_eq!(
        (number, leaves),
        (routed.number, routed.leaves != 0),
        "the model and the causes disagree on a packet at the router"
    );
    tally.add(Group::RouteAnswers, if leaves { 0 } else { 1 + usize::from(number) });
    count_lengths(case, tally);
    match stages[..] {
        [] => count_leaves(view, &list, tally),
        [Stage::NoPort] => count_unsupported(case, &list, tally),
        [stage] => count_alone(stage, case, &list, tally),
        [first, second] => tally.add(Group::RouteTogether, together(first, second)),
        _ => {}
    }
    if let [Stage::Room, later @ ..] = &stages[..] {
        count_room(case, &list, later.first(), tally);
    }
}

fn count_lengths(case: &RouteCase, tally: &mut Tally) {
    let ports = &case.ports;
    tally.add(Group::RouteListLengths, ports.len().min(35));
    tally.add(Group::RouteBufferLengths, case.leaving_length.min(25));
    match case.packet.as_slice() {
        [first, rest @ ..] if matches!(first & 0x7F, 0x1B | 0x5B) => {
            tally.add(Group::RoutePacketLengths, 25 + rest.len());
        }
        bytes => tally.add(Group::RoutePacketLengths, bytes.len()),
    }
    if ports.len() >= 256 {
        let by_low_byte = PortList::read(&ports[..ports.len() % 256]);
        let good = by_low_byte.verdict == Verdict::Good;
        tally.add_if(good, Group::ListShapes, ListShape::GoodByLowByte as usize);
    }
}

/// Counts a call of number 2 by what comes later, or by how its packet would leave, and by whether that alone had room.
fn count_room(case: &RouteCase, list: &PortList<'_>, later: Option<&Stage>, tally: &mut Tally) {
    let sort = match later {
        Some(&stage) => stage as usize - Stage::Short as usize,
        None => {
            let (_, port) = list.port_of(case.packet.bytes[8]).expect("what leaves has a port");
            7 + Departure::of(&case.packet.bytes, port) as usize
        }
    };
    let fits = case.packet.length <= case.leaving_length;
    tally.add(Group::RouteRooms, 2 * sort + usize::from(fits));
}
