//! A bench of either sort, with a board of one function or of two: packets are served on it one after the other.

use super::bench::Bench;
use super::difference::Difference;
use super::duo_bench::DuoBench;
use super::subject::Subject;
use crate::classes::Given;
use crate::generate::{Board, Packet, Random, capturing_write};

/// A board of one function or of two, and what is lent beside its spaces.
pub trait Stand {
    /// One whose board's life is over.
    fn spent() -> Self;

    /// Uses up a call of the board's life. The answer is true with a new board.
    fn live(&mut self, random: &mut Random) -> bool;

    /// The board, or the primary and the alternate.
    fn sides(&self) -> &[Board];

    fn sides_mut(&mut self) -> &mut [Board];

    /// Serves a packet with a random reply of so many bytes. What is captured then, the board keeps.
    fn give(
        &mut self,
        packet: &Packet,
        reply_length: usize,
        random: &mut Random,
        subject: &mut impl Subject,
    ) -> Result<Given, Box<Difference>>;

    fn reset(&mut self, random: &mut Random, subject: &mut impl Subject) -> Result<(), Box<Difference>>;

    /// Where a function has captured nothing, mostly lets it capture something.
    fn let_capture(
        &mut self,
        side: usize,
        random: &mut Random,
        subject: &mut impl Subject,
    ) -> Result<(), Box<Difference>> {
        let board = &self.sides()[side];
        if board.capture.is_some() || random.percent(25) {
            return Ok(());
        }
        let target = (random.byte(), random.below(32) as u8);
        let packet = capturing_write(board, target, random);
        self.give(&packet, 16, random, subject).map(|_| ())
    }
}

impl Stand for Bench {
    fn spent() -> Self {
        Self::spent()
    }

    fn live(&mut self, random: &mut Random) -> bool {
        Self::live(self, random)
    }

    fn sides(&self) -> &[Board] {
        std::slice::from_ref(&self.board)
    }

    fn sides_mut(&mut self) -> &mut [Board] {
        std::slice::from_mut(&mut self.board)
    }

    fn give(
        &mut self,
        packet: &Packet,
        reply_length: usize,
        random: &mut Random,
        subject: &mut impl Subject,
    ) -> Result<Given, Box<Difference>> {
        let kept = self.board.kept(random);
        let served = self.serve_packet(packet, reply_length, kept, random, subject)?;
        Ok(Given::new(served.number, self.written(served)))
    }

    fn reset(&mut self, random: &mut Random, subject: &mut impl Subject) -> Result<(), Box<Difference>> {
        Self::reset(self, random, subject)
    }
}

impl Stand for DuoBench {
    fn spent() -> Self {
        Self::spent()
    }

    fn live(&mut self, random: &mut Random) -> bool {
        Self::live(self, random)
    }

    fn sides(&self) -> &[Board] {
        &self.duo.sides
    }

    fn sides_mut(&mut self) -> &mut [Board] {
        &mut self.duo.sides
    }

    fn give(
        &mut self,
        packet: &Packet,
        reply_length: usize,
        random: &mut Random,
        subject: &mut impl Subject,
    ) -> Result<Given, Box<Difference>> {
        let kept = self.duo.kept(random);
        let served = self.serve_packet(packet, reply_length, kept, random, subject)?;
        Ok(Given::new(served.number, self.written(served)))
    }

    fn reset(&mut self, random: &mut Random, subject: &mut impl Subject) -> Result<(), Box<Difference>> {
        Self::reset(self, random, subject)
    }
}
