//! A call of `serve` as a whole: without a fault of its own, or plain noise.

use thawribbon::raw::{Capture, Description};

use super::board::{Board, LONGEST_SPACE, SPACE_BYTES};
use super::marks::Doubling;
use super::packet::{Packet, noise};
use super::random::Random;

/// The longest reply that is lent.
pub const LONGEST_REPLY: usize = 48;

/// A call of `serve`, but for the bytes of the spaces, of their rules and of their marks.
#[derive(Clone, Copy)]
pub struct ServeCase {
    pub description: Description,
    pub kept: Capture,
    /// The lengths of the ordinary space, its rules, the trusted space and its rules, and of the marks of both.
    pub lengths: [usize; 6],
    /// The bits of the ordinary and of the trusted space that are marked doubly in this call.
    pub doubled: [Option<Doubling>; 2],
    pub packet: Packet,
    pub reply_length: usize,
}

impl ServeCase {
    /// A call without a fault but for what the packet may have. Where nothing is captured, the kept bytes may still be
    /// the packet's own bus and device.
    pub fn sound(board: &Board, packet: Packet, random: &mut Random) -> Self {
        let reply_length = if random.percent(85) {
            random.within(16, 20)
        } else {
            random.within(21, LONGEST_REPLY)
        };
        let mut kept = board.kept(random);
        if kept.captured == 0 && random.percent(25) {
            (kept.bus, kept.device) = (packet.bytes[8], packet.bytes[9] >> 3);
        }
        Self {
            description: board.description,
            kept,
            lengths: [SPACE_BYTES; 6],
            doubled: [None; 2],
            packet,
            reply_length,
        }
    }

    /// A random packet for the board, or a call in which all but the bytes of the spaces is random.
    pub fn noise(board: &Board, random: &mut Random) -> Self {
        let case = Self::sound(board, noise(random), random);
        if random.percent(50) {
            return case;
        }
        let [function, captured, bus, device, a @ ..] = random.bits().to_le_bytes();
        let description = Description {
            function,
            a: u32::from_le_bytes(a),
            b: random.bits() as u32,
            edition: random.bits() as u32,
        };
        let lengths = [0; 6].map(|_| random.below(LONGEST_SPACE + 1));
        let reply_length = random.below(LONGEST_REPLY + 1);
        Self {
            description,
            kept: Capture { captured, bus, device },
            lengths,
            reply_length,
            ..case
        }
    }
}
