//! The rows of packets: one kind of packet each, with many packets that differ in all that the kind leaves open.

mod board;
mod check;
mod draft;
mod kind;
pub mod look;
mod masks;
mod reset;
mod setting;
pub mod variants;

use crate::measure::Pass;
use crate::order;
use crate::random::Random;
use crate::row::{Peer, Row};
use board::SafeRust;
pub use board::{Answer, Board, Library, capture_of, description_of};
pub use draft::Draft;
use kind::{KINDS, Kind};
pub use kind::{SERVED, UNSUPPORTED};
pub use masks::Kept;
use masks::{Looking, Masks};
pub use setting::{Lent, Setting};
use std::hint::black_box;
use std::rc::Rc;

/// How many packets of its kind a row has, and how many are sent in a pass: fewer where each has all rules and marks looked
/// at, so that a pass stays shorter than a batch.
pub const PACKETS: usize = 64;
pub const CALLS: usize = 256;
pub const SERVED_CALLS: usize = 32;

/// The packets of a row.
pub type Packets = Rc<[Box<[u8]>]>;

/// The rows of all kinds and of the reset, after all sides gave equal answers to all their packets.
pub fn rows() -> Result<Vec<Row>, String> {
    let kinds = KINDS.iter().zip(1..).map(|(kind, seed)| row(kind, seed));
    kinds.chain([reset::row()]).collect()
}

fn row(kind: &Kind, seed: u64) -> Result<Row, String> {
    let mut random = Random::seeded(seed);
    let mut setting = Setting::drawn(&mut random);
    (kind.setting)(&mut setting);
    let packets: Packets = (0..PACKETS)
        .map(|_| (kind.draw)(&mut random, &setting).into_bytes())
        .collect();
    let (calls, is_served) = (kind.calls, kind.status.is_some());
    check::equal_answers(kind.what, &setting, &packets, is_served, kind.answer, kind.status)?;
    let mut peers = vec![(Peer::SafeRust, pass::<SafeRust>(&setting, &packets, calls))];
    if is_served {
        peers.extend(peers_in_c(kind, &setting, &packets)?);
    }
    let library = pass::<Library>(&setting, &packets, calls);
    Ok(Row::new(kind.what, calls, library, peers))
}

/// What there is in C beside a packet that is served: the loop over mask bytes, without the look at all rules and marks and
/// with it, that look by itself, and the same bytes only read.
fn peers_in_c(kind: &Kind, setting: &Setting, packets: &Packets) -> Result<[(Peer, Pass); 4], String> {
    look::check(kind.what, setting)?;
    Ok([
        (Peer::Masks, pass::<Masks>(setting, packets, kind.calls)),
        (Peer::Looking, pass::<Looking>(setting, packets, kind.calls)),
        (Peer::Look, look::overlap_pass([setting], packets, kind.calls)),
        (Peer::Reading, look::read_pass([setting], packets, kind.calls)),
    ])
}

/// Packets, one after the other, to a board of a side.
pub fn pass<Side: Board + 'static>(setting: &Setting, packets: &Packets, calls: usize) -> Pass {
    let mut board = Side::new(setting);
    let serve: fn(&mut Side, &[u8]) -> Answer = black_box(Side::serve);
    order::pass(packets, calls, move |packet| {
        black_box(serve(black_box(&mut board), black_box(packet)));
    })
}
