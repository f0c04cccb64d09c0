//! Ways to judge a list of ports: right ones, and such as some list shows to be wrong.

use thawribbon::raw::Port;

use crate::harness::{Wrong, expect_not_caught};
use crate::router::{by_place, expect_router_caught, first_match, has, refused};

/// Routes by the first port that has the bus where a list is held to be good, and refuses it otherwise.
fn judged_by(is_good: impl Fn(&[Port]) -> bool + 'static) -> Wrong {
    Wrong::route(move |ports, packet, leaving| {
        if is_good(ports) {
            by_place(ports, first_match(ports, packet), packet, leaving)
        } else {
            refused(1)
        }
    })
}

fn no_more_than_32(ports: &[Port]) -> bool {
    ports.len() <= 32
}

fn none_is_over(ports: &[Port]) -> bool {
    ports.iter().all(|port| port.secondary <= port.subordinate)
}

/// Whether some bus is in both ranges, tried bus by bus.
fn meet(one: &Port, other: &Port) -> bool {
    (one.secondary..=one.subordinate).any(|bus| has(other, bus))
}

/// Whether a test of two ports holds for no pair of places, the lower first.
fn no_pair(ports: &[Port], test: impl Fn(usize, usize) -> bool) -> bool {
    (0..ports.len()).all(|second| (0..second).all(|first| !test(first, second)))
}

/// Sees that a router is caught which holds two ports to meet by another test.
fn expect_caught_meeting_by(test: fn(&Port, &Port) -> bool) {
    expect_router_caught(judged_by(move |ports| {
        let pair = |first, second| test(&ports[first], &ports[second]);
        no_more_than_32(ports) && none_is_over(ports) && no_pair(ports, pair)
    }));
}

/// Sees that a router is caught which compares only some of the places, in a list of so many.
fn expect_caught_comparing(is_compared: fn(usize, usize, usize) -> bool) {
    expect_router_caught(judged_by(move |ports| {
        let pair = |first, second| is_compared(first, second, ports.len()) && meet(&ports[first], &ports[second]);
        no_more_than_32(ports) && none_is_over(ports) && no_pair(ports, pair)
    }));
}

#[test]
fn all_pairs_tried_bus_by_bus_are_not_caught() {
    expect_not_caught(judged_by(|ports| {
        let pair = |first: usize, second: usize| meet(&ports[first], &ports[second]);
        no_more_than_32(ports) && none_is_over(ports) && no_pair(ports, pair)
    }));
}

/// Each bus is given to its port; one that is given away already refuses the list. The packet's bus is looked up there.
#[test]
fn a_map_of_256_buses_is_not_caught() {
    expect_not_caught(Wrong::route(|ports, packet, leaving| {
        let mut map = [None; 256];
        for (place, port) in ports.iter().enumerate() {
            let is_free = |bus: u8| map[usize::from(bus)].is_none();
            let good = port.secondary <= port.subordinate && (port.secondary..=port.subordinate).all(is_free);
            if place == 32 || !good {
                return refused(1);
            }
            map[usize::from(port.secondary)..=usize::from(port.subordinate)].fill(Some(place));
        }
        let place = packet.get(8).and_then(|&bus| map[usize::from(bus)]);
        by_place(ports, place, packet, leaving)
    }));
}

/// Sorted by their secondaries, each port is compared with the next one only.
#[test]
fn sorting_first_is_not_caught() {
    expect_not_caught(judged_by(|ports| {
        let mut sorted = ports.to_vec();
        sorted.sort_unstable_by_key(|port| port.secondary);
        let apart = sorted.windows(2).all(|pair| pair[0].subordinate < pair[1].secondary);
        no_more_than_32(ports) && none_is_over(ports) && apart
    }));
}

#[test]
fn a_range_that_holds_another_taken() {
    expect_caught_meeting_by(|first, second| has(second, first.secondary) || has(second, first.subordinate));
    expect_caught_meeting_by(|first, second| has(first, second.secondary) || has(first, second.subordinate));
    expect_caught_meeting_by(|first, second| has(second, first.secondary) && has(second, first.subordinate));
}

#[test]
fn ranges_that_share_one_end_taken() {
    expect_caught_meeting_by(|first, second| {
        first.secondary < second.subordinate && second.secondary < first.subordinate
    });
    expect_caught_meeting_by(|first, second| {
        first.secondary <= second.subordinate && second.secondary < first.subordinate
    });
    expect_caught_meeting_by(|first, second| {
        first.secondary < second.subordinate && second.secondary <= first.subordinate
    });
}

#[test]
fn the_same_range_twice_taken() {
    expect_caught_meeting_by(|first, second| {
        let ends = |port: &Port| (port.secondary, port.subordinate);
        ends(first) != ends(second) && meet(first, second)
    });
}

#[test]
fn only_secondaries_or_only_subordinates_compared() {
    expect_caught_meeting_by(|first, second| first.secondary == second.secondary);
    expect_caught_meeting_by(|first, second| first.subordinate == second.subordinate);
}

/// Neighbours that touch have no bus in common.
#[test]
fn ranges_that_touch_refused() {
    expect_caught_meeting_by(|first, second| {
        let touch = |lower: &Port, upper: &Port| lower.subordinate.checked_add(1) == Some(upper.secondary);
        meet(first, second) || touch(first, second) || touch(second, first)
    });
}

#[test]
fn buses_compared_as_signed_numbers() {
    expect_caught_meeting_by(|first, second| {
        first.secondary as i8 <= second.subordinate as i8 && second.secondary as i8 <= first.subordinate as i8
    });
    let signed = |port: &Port| port.secondary as i8 <= port.subordinate as i8;
    expect_router_caught(judged_by(move |ports| {
        let pair = |first: usize, second: usize| meet(&ports[first], &ports[second]);
        no_more_than_32(ports) && ports.iter().all(signed) && no_pair(ports, pair)
    }));
}

#[test]
fn a_bad_list_never_refused() {
    expect_router_caught(judged_by(|_| true));
}

#[test]
fn ranges_not_compared_at_all() {
    expect_caught_comparing(|_, _, _| false);
}

#[test]
fn only_neighbours_in_the_list_compared() {
    expect_caught_comparing(|first, second, _| first + 1 == second);
    expect_caught_comparing(|first, second, _| first + 2 >= second);
}

#[test]
fn only_one_port_compared_with_the_others() {
    expect_caught_comparing(|first, _, _| first == 0);
    expect_caught_comparing(|_, second, length| second + 1 == length);
}

#[test]
fn one_port_not_compared() {
    expect_caught_comparing(|first, _, _| first != 0);
    expect_caught_comparing(|_, second, length| second + 1 != length);
    expect_caught_comparing(|_, second, _| second != 31);
}

#[test]
fn one_pair_not_compared() {
    expect_caught_comparing(|first, second, _| (first, second) != (0, 1));
    expect_caught_comparing(|first, second, length| first + 2 != length || second + 1 != length);
    expect_caught_comparing(|first, second, length| first != 0 || second + 1 != length);
}

/// The two ranges that meet are looked for only where they would matter.
#[test]
fn only_the_packets_bus_looked_for_in_two_ranges() {
    expect_router_caught(Wrong::route(|ports, packet, leaving| {
        let holders = packet
            .get(8)
            .map_or(0, |&bus| ports.iter().filter(|port| has(port, bus)).count());
        if holders > 1 || !no_more_than_32(ports) || !none_is_over(ports) {
            return refused(1);
        }
        by_place(ports, first_match(ports, packet), packet, leaving)
    }));
}

/// A router that judges only a part of the list, and then goes through all of it.
fn expect_caught_judging(part: fn(&[Port]) -> &[Port]) {
    expect_router_caught(judged_by(move |ports| {
        let ports = part(ports);
        let pair = |first: usize, second: usize| meet(&ports[first], &ports[second]);
        no_more_than_32(ports) && none_is_over(ports) && no_pair(ports, pair)
    }));
}

#[test]
fn a_list_of_33_ports_taken() {
    expect_caught_judging(|ports| if ports.len() == 33 { &ports[..32] } else { ports });
}

#[test]
fn only_the_first_32_ports_judged() {
    expect_caught_judging(|ports| &ports[..ports.len().min(32)]);
}

#[test]
fn the_number_of_ports_taken_by_its_low_byte() {
    expect_caught_judging(|ports| &ports[..ports.len() % 256]);
}

#[test]
fn the_last_port_not_judged() {
    expect_caught_judging(|ports| &ports[..ports.len().saturating_sub(1)]);
}

#[test]
fn a_list_of_32_ports_refused() {
    expect_router_caught(judged_by(|ports| {
        let pair = |first: usize, second: usize| meet(&ports[first], &ports[second]);
        ports.len() < 32 && none_is_over(ports) && no_pair(ports, pair)
    }));
}

#[test]
fn the_empty_list_refused() {
    expect_router_caught(judged_by(|ports| {
        let pair = |first: usize, second: usize| meet(&ports[first], &ports[second]);
        (1..=32).contains(&ports.len()) && none_is_over(ports) && no_pair(ports, pair)
    }));
}

/// A router that holds a port to be the right way round by another test.
fn expect_caught_taking(is_taken: fn(usize, &Port) -> bool) {
    expect_router_caught(judged_by(move |ports| {
        let pair = |first: usize, second: usize| meet(&ports[first], &ports[second]);
        let all_taken = ports.iter().enumerate().all(|(place, port)| is_taken(place, port));
        no_more_than_32(ports) && all_taken && no_pair(ports, pair)
    }));
}

#[test]
fn a_secondary_over_its_subordinate_taken() {
    expect_caught_taking(|_, _| true);
    expect_caught_taking(|_, port| port.secondary <= port.subordinate.saturating_add(1));
    expect_caught_taking(|place, port| place == 0 || port.secondary <= port.subordinate);
    expect_caught_taking(|place, port| place == 31 || port.secondary <= port.subordinate);
}

#[test]
fn a_range_of_one_bus_refused() {
    expect_caught_taking(|_, port| port.secondary < port.subordinate);
}

#[test]
fn a_range_of_all_buses_refused() {
    expect_caught_taking(|_, port| {
        let buses = port.subordinate.wrapping_sub(port.secondary).wrapping_add(1);
        port.secondary <= port.subordinate && buses != 0
    });
}
