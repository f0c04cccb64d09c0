//! One line of the main table: what is timed, and on which sides.

use crate::measure::{Contest, Pass};

/// What the library is compared with.
#[derive(Clone, Copy, Debug, PartialEq, Eq)]
pub enum Peer {
    /// The independent implementation in safe Rust.
    SafeRust,
    /// The loop over mask bytes in C.
    Masks,
    /// The pointers followed, and nothing else.
    Chase,
    /// The loop over mask bytes in C, after a look at all rules and marks.
    Looking,
    /// That look by itself, in C.
    Look,
    /// The same 16 KiB read once, in C; of a board of two functions 32.
    Reading,
    /// On a board of two functions: the function that serves a packet, by the library's entry for one, after a look in C at
    /// the other.
    ByHand,
    /// The same without the look at the other.
    Alone,
}

/// A line of the table. The contest's first side is the library, the others are the peers in their order.
pub struct Row {
    pub what: String,
    pub peers: Vec<Peer>,
    pub contest: Contest,
}

impl Row {
    /// Every pass makes the same number of calls.
    pub fn new(what: &str, calls_of_a_pass: usize, library: Pass, peers: Vec<(Peer, Pass)>) -> Self {
        let (names, passes): (Vec<Peer>, Vec<Pass>) = peers.into_iter().unzip();
        let sides = std::iter::once(library).chain(passes).collect();
        Self {
            what: what.to_string(),
            peers: names,
            contest: Contest::new(calls_of_a_pass, sides),
        }
    }

    /// The side of the contest that a peer is, if it is timed in this row.
    pub fn side(&self, peer: Peer) -> Option<usize> {
        self.peers
            .iter()
            .position(|&other| other == peer)
            .map(|place| place + 1)
    }

    /// The ratio of the medians, library / peer, if the peer is timed in this row.
    pub fn ratio(&self, peer: Peer) -> Option<f64> {
        self.side(peer)
            .map(|side| self.contest.median(0) / self.contest.median(side))
    }
}
