//! Packets for the router: for a bus of a port or of none, of all six type codes, in every form.

use thawribbon::raw::Port;

use super::packet::{Fields, Packet, Route, encode};
use super::random::Random;

/// A packet with no cause for the numbers 3 to 6, for a list of ports of which one may be favoured.
pub fn sound_packet(ports: &[Port], favoured: Option<usize>, random: &mut Random) -> Packet {
    let route = random.pick(&[
        Route::Type1,
        Route::Type1,
        Route::Type1,
        Route::Type1,
        Route::Type1,
        Route::Trusted,
        Route::Trusted,
        Route::Trusted,
        Route::Trusted,
        Route::Type0,
    ]);
    let bus = match favoured {
        _ if ports.is_empty() => random.byte(),
        Some(place) if random.percent(60) => bus_of(ports[place], random),
        _ if random.percent(25) => bus_of_none(ports, random),
        _ => bus_of(random.pick(ports), random),
    };
    let fields = Fields {
        route,
        writes: random.percent(50),
        poisoned: random.percent(30),
        enables: random.below(16) as u8,
        bus,
        device: random.below(32) as u8,
        function: random.below(8) as u8,
        offset: 4 * random.below(1024),
    };
    encode(&fields, random)
}

/// A bus of a port: its secondary, its subordinate, or any of its range.
fn bus_of(port: Port, random: &mut Random) -> u8 {
    let width = port.subordinate.saturating_sub(port.secondary);
    let any = port.secondary + random.within(0, width.into()) as u8;
    random.pick(&[port.secondary, port.secondary, port.subordinate, any, any])
}

/// A bus of no port, if a few tries find one: one below a secondary, one above a subordinate, or any.
fn bus_of_none(ports: &[Port], random: &mut Random) -> u8 {
    let mut bus = random.byte();
    for _ in 0..8 {
        let (port, any) = (random.pick(ports), random.byte());
        let (below, above) = (port.secondary.wrapping_sub(1), port.subordinate.wrapping_add(1));
        bus = random.pick(&[below, above, any]);
        if !ports
            .iter()
            .any(|port| (port.secondary..=port.subordinate).contains(&bus))
        {
            break;
        }
    }
    bus
}
