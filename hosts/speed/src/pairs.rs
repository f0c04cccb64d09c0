//! The rows of a board of two functions: packets for the primary, for the alternate, for either and for neither.

mod board;
mod by_hand;
mod check;
mod kind;
mod masks;
mod safe_rust;
mod two;

#[cfg(test)]
mod agreement;

use crate::measure::Pass;
use crate::order;
use crate::packets::{self, Answer, PACKETS, Packets, look};
use crate::random::Random;
use crate::row::{Peer, Row};
use board::{Library, Pair, SafeRust};
use by_hand::ByHand;
use kind::{KINDS, Kind};
use masks::{Looking, Masks};
use std::hint::black_box;
use two::Two;

/// The rows of all kinds, after all sides gave equal answers to all their packets.
pub fn rows() -> Result<Vec<Row>, String> {
    KINDS.iter().zip(8000..).map(|(kind, seed)| row(kind, seed)).collect()
}

fn row(kind: &Kind, seed: u64) -> Result<Row, String> {
    let mut random = Random::seeded(seed);
    let mut two = Two::drawn(&mut random);
    (kind.setting)(&mut two);
    let packets: Packets = (0..PACKETS)
        .map(|_| (kind.draw)(&mut random, &two).into_bytes())
        .collect();
    check::equal_answers(kind, &two, &packets)?;
    let mut peers = vec![(Peer::SafeRust, pass::<SafeRust>(&two, &packets, kind.calls))];
    if kind.is_served() {
        peers.extend(peers_of_served(kind, &two, &packets)?);
    }
    let library = pass::<Library>(&two, &packets, kind.calls);
    Ok(Row::new(kind.what, kind.calls, library, peers))
}

/// What there is beside a packet that is served: in C what packets for one function have beside them, over both functions;
/// and by the library the function that serves it as a board of one, without the other and after a look at the other.
fn peers_of_served(kind: &Kind, two: &Two, packets: &Packets) -> Result<Vec<(Peer, Pass)>, String> {
    let settings = [&two.primary, &two.alternate];
    for setting in settings {
        look::check(kind.what, setting)?;
    }
    let mut peers = vec![
        (Peer::Masks, pass::<Masks>(two, packets, kind.calls)),
        (Peer::Looking, pass::<Looking>(two, packets, kind.calls)),
        (Peer::Look, look::overlap_pass(settings, packets, kind.calls)),
        (Peer::Reading, look::read_pass(settings, packets, kind.calls)),
        (Peer::ByHand, pass::<ByHand>(two, packets, kind.calls)),
    ];
    if let Some(setting) = kind.alone(two) {
        let alone = packets::pass::<packets::Library>(setting, packets, kind.calls);
        peers.push((Peer::Alone, alone));
    }
    Ok(peers)
}

/// Packets, one after the other, to a board of a side.
fn pass<Side: Pair + 'static>(two: &Two, packets: &Packets, calls: usize) -> Pass {
    let mut board = Side::new(two);
    let serve: fn(&mut Side, &[u8]) -> Answer = black_box(Side::serve);
    order::pass(packets, calls, move |packet| {
        black_box(serve(black_box(&mut board), black_box(packet)));
    })
}
