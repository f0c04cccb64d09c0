//! The classes of a call of `route` with number 0: by which port and in which form a packet leaves, or why none has it.

use thawribbon::raw::Port;

use super::access::{RESERVED, count_reserved};
use super::departure::{Departure, FORMS, form, is_trusted};
use super::group::Group;
use super::port_list::{PLACES, Place, PortList};
use super::route::RouteView;
use super::route_names::ListShape;
use super::tally::Tally;
use crate::generate::RouteCase;

/// Counts a packet that leaves, after a look at all that is told of it and written.
pub fn count_leaves(view: &RouteView<'_>, list: &PortList<'_>, tally: &mut Tally) {
    let bytes = &view.case.packet.bytes;
    let (place, port) = list.port_of(bytes[8]).expect("what leaves has a port");
    let departure = Departure::of(bytes, port);
    let due = departure.bytes(view.case.packet.as_slice());
    assert_eq!(
        (usize::from(view.routed.port), &view.leaving[..view.routed.length]),
        (place, &due[..]),
        "the model and the causes disagree on what leaves a router"
    );
    tally.add(Group::RouteLeaves, leaves_place(bytes, port, departure));
    let room = view.case.leaving_length.min(25) - 20;
    tally.add(Group::RouteWritten, 6 * (due.len() / 4 - 3) + room);
    tally.add(Group::RoutePorts, 32 * departure as usize + place);
    let length = list.ports.len();
    tally.add(Group::RoutePortsOfLists, length * (length - 1) / 2 + place);
    let bus = usize::from(bytes[8]);
    match departure {
        Departure::AsType0 => tally.add(Group::RouteBuses, bus),
        Departure::AsType1 => tally.add(Group::RouteBuses, 255 + bus),
        Departure::Trusted => tally.add(Group::RouteBuses, 511 + bus),
    }
    count_reserved(
        bytes,
        &RESERVED,
        Group::RouteReservedBits,
        15 * departure as usize,
        tally,
    );
    count_shapes(bytes[8], port, departure, list, tally);
}

/// By the packet's form, by where its bus lies in the range, and for Type 1 by whether the port supports TCS routing.
fn leaves_place(bytes: &[u8; 24], port: Port, departure: Departure) -> usize {
    let place = PLACES * form(bytes) + Place::of(bytes[8], port) as usize;
    match departure {
        Departure::Trusted => 2 * PLACES * FORMS + place,
        _ => 2 * place + usize::from(port.tcs),
    }
}

/// Counts what is special of the list, or of the port in it, by which a packet leaves.
fn count_shapes(bus: u8, port: Port, departure: Departure, list: &PortList<'_>, tally: &mut Tally) {
    let ports = list.ports;
    let mut add_if = |condition, shape| tally.add_if(condition, Group::ListShapes, shape as usize);
    let has_all = port.secondary == 0 && port.subordinate == 255;
    let as_type_0 = departure == Departure::AsType0;
    add_if(has_all && as_type_0, ListShape::OneForAllAsType0);
    add_if(has_all && !as_type_0, ListShape::OneForAllUnchanged);
    add_if(ports.len() == 32 && list.has_all_buses(), ListShape::ManyForAll);
    let single = |port: &Port| port.secondary == port.subordinate;
    add_if(ports.len() == 32 && ports.iter().all(single), ListShape::ManySingles);
    let [below, above] = list.taken_beside(bus);
    add_if(bus == port.secondary && below, ListShape::TouchedBelow);
    add_if(bus == port.subordinate && above, ListShape::TouchedAbove);
    if ports.len() >= 3 {
        let ascending = ports.is_sorted_by_key(|port| port.secondary);
        let descending = ports.iter().rev().is_sorted_by_key(|port| port.secondary);
        add_if(ascending, ListShape::Ascending);
        add_if(descending, ListShape::Descending);
        add_if(!ascending && !descending, ListShape::NeitherOrder);
    }
    let supporters = ports.iter().filter(|port| port.tcs).count();
    let only_one = departure == Departure::Trusted && supporters == 1 && ports.len() > 1;
    add_if(only_one, ListShape::OnlySupporter);
}

/// Counts a packet that gets UR: by its type and form and by the ranges beside its bus, by the length of the list, and
/// by its bus.
pub fn count_unsupported(case: &RouteCase, list: &PortList<'_>, tally: &mut Tally) {
    let bytes = &case.packet.bytes;
    let [below, above] = list.taken_beside(bytes[8]);
    let beside = match (list.ports.is_empty(), above, below) {
        (true, ..) => 0,
        (false, false, false) => 1,
        (false, true, false) => 2,
        (false, false, true) => 3,
        (false, true, true) => 4,
    };
    let kind = FORMS * usize::from(is_trusted(bytes)) + form(bytes);
    tally.add(Group::RouteUnsupported, 5 * kind + beside);
    tally.add(Group::RouteUnsupportedLists, list.ports.len());
    tally.add(Group::RouteBuses, 767 + usize::from(bytes[8]));
}
