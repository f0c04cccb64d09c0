//! The classes of a call of `route` that is refused for one cause and has no other.

use std::cmp::Ordering;

use thawribbon::raw::Port;

use super::alone::only;
use super::departure::{form, is_trusted};
use super::group::Group;
use super::packet_causes::{
    length_field, other_first_byte, packet_causes, wrong_attributes, wrong_last_enables, wrong_traffic_class,
};
use super::port_list::{PLACES, Place, PortList, Verdict};
use super::route_names::{ListShape, RouteCause};
use super::stages::Stage;
use super::tally::Tally;
use crate::generate::{Packet, RouteCase};

/// Counts a call that has something at one stage only. Where that is UR, it is no refusal.
pub fn count_alone(stage: Stage, case: &RouteCase, list: &PortList<'_>, tally: &mut Tally) {
    let packet = &case.packet;
    let cause = match stage {
        Stage::List => count_list(case, list, tally),
        Stage::Room => Some(RouteCause::Room),
        Stage::Short => Some(RouteCause::Short),
        Stage::TypeCode => {
            tally.add(Group::RouteFirstBytes, other_first_byte(packet.bytes[0]));
            Some(RouteCause::TypeCode)
        }
        Stage::PacketLength => {
            tally.add(Group::RouteWrongLengths, wrong_length(packet));
            Some(RouteCause::PacketLength)
        }
        Stage::Field => count_field(packet, tally),
        Stage::Type0 => {
            tally.add(Group::RouteType0, type_0(&packet.bytes, list));
            Some(RouteCause::Type0)
        }
        Stage::NoPort => None,
        Stage::NoSupport => {
            count_no_support(&packet.bytes, list, tally);
            Some(RouteCause::NoSupport)
        }
    };
    if let Some(cause) = cause {
        tally.add(Group::RouteCauses, cause as usize);
    }
}

/// Counts a list with one thing wrong, and tells which; none where there is more.
fn count_list(case: &RouteCase, list: &PortList<'_>, tally: &mut Tally) -> Option<RouteCause> {
    match list.verdict {
        Verdict::Good | Verdict::Worse => None,
        Verdict::TooMany if list.ports.len() == 33 => Some(RouteCause::Ports33),
        Verdict::TooMany => Some(RouteCause::MorePorts),
        Verdict::Over(place) => {
            tally.add(Group::RouteOvers, place);
            let Port {
                secondary, subordinate, ..
            } = list.ports[place];
            Some(match secondary - subordinate {
                1 => RouteCause::OverByOne,
                _ => RouteCause::OverByMore,
            })
        }
        Verdict::Meet(first, second) => {
            tally.add(Group::RoutePairs, second * (second - 1) / 2 + first);
            tally.add(Group::Meetings, meeting(list.ports[first], list.ports[second]));
            let both = [list.ports[first], list.ports[second]];
            tally.add(Group::MetBuses, met_bus(&case.packet.bytes, both));
            Some(RouteCause::Meet)
        }
    }
}

/// How the first of two ranges that meet lies to the second, by the places of the group's names.
fn meeting(first: Port, second: Port) -> usize {
    let begins = first.secondary.cmp(&second.secondary);
    let ends = first.subordinate.cmp(&second.subordinate);
    match (begins, ends) {
        (Ordering::Less, Ordering::Less) => usize::from(first.subordinate != second.secondary),
        (Ordering::Less, Ordering::Equal) => 2,
        (Ordering::Less, Ordering::Greater) => 3,
        (Ordering::Equal, Ordering::Less) => 4,
        (Ordering::Equal, Ordering::Equal) => 5,
        (Ordering::Equal, Ordering::Greater) => 6,
        (Ordering::Greater, Ordering::Less) => 7,
        (Ordering::Greater, Ordering::Equal) => 8,
        (Ordering::Greater, Ordering::Greater) => 9 + usize::from(first.secondary == second.subordinate),
    }
}

/// Where the packet's bus lies to two ranges that meet: in both, in one of them, or in a third.
fn met_bus(bytes: &[u8; 24], both: [Port; 2]) -> usize {
    let has = |port: &Port| port.secondary <= bytes[8] && bytes[8] <= port.subordinate;
    let misses = both.iter().filter(|port| !has(port)).count();
    3 * usize::from(is_trusted(bytes)) + misses
}

/// The place of a packet's length among the twelve from 12 to 24 that are wrong for it, by the four type codes that can
/// leave, and the digest bit.
fn wrong_length(packet: &Packet) -> usize {
    let (bytes, length) = (&packet.bytes, packet.length);
    let form = 4 * usize::from(is_trusted(bytes)) + 2 * usize::from(bytes[0] >> 6 & 1) + usize::from(bytes[2] >> 7);
    12 * form + length - 12 - usize::from(length > packet.right_length())
}

/// Counts the value of a fixed field that stands alone, and tells which field it is.
fn count_field(packet: &Packet, tally: &mut Tally) -> Option<RouteCause> {
    let bytes = &packet.bytes;
    let [.., traffic_class, attributes, last_enables, length] = packet_causes(packet, false);
    let (place, cause) = match only(&[traffic_class, attributes, last_enables, length])? {
        0 => (wrong_traffic_class(bytes), RouteCause::TrafficClass),
        1 => (wrong_attributes(bytes), RouteCause::Attributes),
        2 => (wrong_last_enables(bytes), RouteCause::LastEnables),
        _ => (25 + wrong_length_bits(bytes), RouteCause::Length),
    };
    tally.add(Group::RouteFieldValues, place);
    Some(cause)
}

/// Which one of the ten bits of Length is not as in 1; the eleventh place is for more than one.
fn wrong_length_bits(bytes: &[u8; 24]) -> usize {
    let wrong = length_field(bytes) ^ 1;
    if wrong.is_power_of_two() {
        wrong.trailing_zeros() as usize
    } else {
        10
    }
}

/// A Type 0 request by its form, and by where its bus lies: in a range, in none, or in none as there is no port at all.
fn type_0(bytes: &[u8; 24], list: &PortList<'_>) -> usize {
    let place = match list.port_of(bytes[8]) {
        Some((_, port)) => Place::of(bytes[8], port) as usize,
        None => PLACES + usize::from(list.ports.is_empty()),
    };
    (PLACES + 2) * form(bytes) + place
}

fn count_no_support(bytes: &[u8; 24], list: &PortList<'_>, tally: &mut Tally) {
    let (_, port) = list.port_of(bytes[8]).expect("a port that does not support it");
    let place = Place::of(bytes[8], port) as usize;
    tally.add(Group::RouteNoSupport, PLACES * form(bytes) + place);
    let without = list.ports.iter().filter(|port| !port.tcs).count();
    tally.add_if(
        without == 1 && list.ports.len() > 1,
        Group::ListShapes,
        ListShape::OnlyWithout as usize,
    );
}
