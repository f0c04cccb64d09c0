//! Packets and resets on boards: made, served by the model and by the subject, compared and counted.

use thawribbon::raw::{Capture, Served};

use super::bench::{Bench, reset};
use super::difference::Difference;
use super::reference::meaning;
use super::subject::Subject;
use crate::classes::{Group, History, ServeView, Tally, count_reset, count_serve};
use crate::generate::{FaultMaker, PacketMaker, Random, ServeCase};

/// A board, and the packets for it.
pub struct Packets {
    bench: Bench,
    history: History,
    packet_maker: PacketMaker,
    fault_maker: FaultMaker,
}

impl Packets {
    pub fn new() -> Self {
        Self {
            bench: Bench::spent(),
            history: History::default(),
            packet_maker: PacketMaker::new(),
            fault_maker: FaultMaker::new(),
        }
    }

    /// One call of `serve`.
    pub fn serve(
        &mut self,
        subject: &mut impl Subject,
        random: &mut Random,
        tally: &mut Tally,
    ) -> Result<(), Box<Difference>> {
        self.live(random);
        let is_noise = random.percent(4);
        let case = self.case(is_noise, random);
        self.load(&case, random);
        let served = self.bench.serve(case.description, case.kept, subject)?;
        tally.add_if(is_noise, Group::Noise, 0);
        self.count(&case, served, tally);
        self.bench.board.undo_doubling();
        self.bench.keep(served);
        Ok(())
    }

    /// One call of `reset`: mostly for the board, else for a capture of random bytes that is no board's.
    pub fn reset(
        &mut self,
        subject: &mut impl Subject,
        random: &mut Random,
        tally: &mut Tally,
    ) -> Result<(), Box<Difference>> {
        self.live(random);
        let is_noise = random.percent(25);
        let kept = if is_noise {
            let [captured, bus, device, ..] = random.bits().to_le_bytes();
            Capture { captured, bus, device }
        } else {
            self.bench.board.kept(random)
        };
        let after = reset(kept, subject)?;
        count_reset(meaning(kept).is_some(), is_noise, tally);
        if !is_noise {
            self.bench.board.capture = meaning(after);
        }
        Ok(())
    }

    /// Uses up a call of the board's life, and begins a new history with a new board.
    fn live(&mut self, random: &mut Random) {
        if self.bench.live(random) {
            self.history = History::default();
        }
    }

    fn case(&mut self, is_noise: bool, random: &mut Random) -> ServeCase {
        let board = &self.bench.board;
        if is_noise {
            return ServeCase::noise(board, random);
        }
        let faults = random.weighted(&[59, 29, 9, 3]);
        // Now and then bit 7 is the only fault. It is one under edition 2.
        let only_bit_7 = faults == 0 && board.description.edition == 2 && random.percent(10);
        let mut packet = self.packet_maker.sound(board, faults == 0 && !only_bit_7, random);
        if only_bit_7 {
            packet = packet.with_bit_7(true);
        }
        let mut case = ServeCase::sound(board, packet, random);
        self.fault_maker.put_some(faults, &mut case, random);
        case
    }

    /// Puts errors that have come up, a case's doubly marked bits, its packet, a random reply and the lengths in place.
    fn load(&mut self, case: &ServeCase, random: &mut Random) {
        let bench = &mut self.bench;
        bench.board.raise(case.packet.offset(), random);
        bench.board.double(case.doubled);
        bench.board.lend(case.lengths);
        bench.load(&case.packet, case.reply_length, random);
    }

    fn count(&mut self, case: &ServeCase, served: Served, tally: &mut Tally) {
        let board = &self.bench.board;
        let view = ServeView {
            case,
            ordinary_before: board.ordinary.before(),
            ordinary_after: board.ordinary.ours(),
            ordinary_rules: board.ordinary_rules.ours(),
            ordinary_marks: board.ordinary_marks.ours(),
            trusted_before: board.trusted.before(),
            trusted_after: board.trusted.ours(),
            trusted_rules: board.trusted_rules.ours(),
            trusted_marks: board.trusted_marks.ours(),
            served,
            reply: self.bench.reply.ours(),
        };
        count_serve(&view, &mut self.history, tally);
    }
}
