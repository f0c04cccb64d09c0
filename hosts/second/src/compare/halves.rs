//! The halves of demand 3: two runs with the same packets of one kind, and others of the other kind. Which kind a packet is
//! of hangs on the edition, by request 9/13. Each packet is served by the model and by the subject, and what the two runs
//! came to is compared.

use thawribbon::raw::Served;

use super::bench::{Bench, boards};
use super::difference::Difference;
use super::subject::Subject;
use crate::classes::{HalfView, Met, Tally, count_own, count_shared, look_at_both};
use crate::generate::{
    HALVES, Half, Packet, Random, RunPacketMaker, capturing_write, register, some_reply_length, write_at_b,
};
use crate::model::counts_as_trusted;

/// What a comparison answers.
type Compared = Result<(), Box<Difference>>;

/// The most calls that two runs live for.
const LONGEST_LIFE: usize = 200;

/// Two runs, and the maker of their packets.
pub struct Halves {
    runs: [Bench; 2],
    half: Half,
    maker: RunPacketMaker,
    met: Met,
    calls_left: usize,
}

impl Halves {
    pub fn new() -> Self {
        Self {
            runs: [Bench::spent(), Bench::spent()],
            half: Half::Ordinary,
            maker: RunPacketMaker::new(),
            met: Met::default(),
            calls_left: 0,
        }
    }

    /// One step: a packet that both runs have, one that one of them has, a reset, or what makes the two meet again.
    pub fn step(&mut self, subject: &mut impl Subject, random: &mut Random, tally: &mut Tally) -> Compared {
        self.live(random);
        let may_meet = self.half.may_meet([&self.runs[0].board, &self.runs[1].board]);
        let shared = if may_meet { 48 } else { 0 };
        let meeting = if may_meet { 6 } else { 48 };
        match random.weighted(&[shared, 42, 4, meeting]) {
            0 => self.shared(subject, random, tally)?,
            1 => self.own(subject, random, tally)?,
            2 => self.reset(subject, random)?,
            _ => self.meet(subject, random)?,
        }
        look_at_both(self.half, &boards(&self.runs[0].board, &self.runs[1].board));
        Ok(())
    }

    /// A packet of the kind that both runs have, with a reply of the same size.
    fn shared(&mut self, subject: &mut impl Subject, random: &mut Random, tally: &mut Tally) -> Compared {
        let packet = self.draw(0, self.half == Half::Trusted, random);
        let reply_length = some_reply_length(random);
        let kept = self.runs[0].board.kept(random);
        let mut served = [Served::default(); 2];
        for (run, served) in self.runs.iter_mut().zip(&mut served) {
            *served = run.serve_packet(&packet, reply_length, kept, random, subject)?;
        }
        let mut met = self.met;
        count_shared(&self.view(packet.as_slice(), served), &mut met, tally);
        self.met = met;
        Ok(())
    }

    /// A packet of the other kind, for one of the runs, with a reply of any size.
    fn own(&mut self, subject: &mut impl Subject, random: &mut Random, tally: &mut Tally) -> Compared {
        let one = random.below(2);
        let packet = self.draw(one, self.half == Half::Ordinary, random);
        let reply_length = some_reply_length(random);
        let run = &mut self.runs[one];
        let kept = run.board.kept(random);
        let served = run.serve_packet(&packet, reply_length, kept, random, subject)?;
        let written = run.written(served);
        let edition = run.board.description.edition;
        count_own(edition, packet.as_slice(), served, written, tally);
        self.met.own(one, packet.as_slice());
        Ok(())
    }

    /// A packet for one of the runs that is trusted, or one that is not.
    fn draw(&mut self, run: usize, trusted: bool, random: &mut Random) -> Packet {
        let board = &self.runs[run].board;
        let edition = board.description.edition;
        self.maker.draw_such(board, random, |packet| {
            counts_as_trusted(packet.as_slice(), edition) == trusted
        })
    }

    /// A reset: in the first half of both runs, in the second of one of them or of both.
    fn reset(&mut self, subject: &mut impl Subject, random: &mut Random) -> Compared {
        let one = random.below(4);
        for (place, run) in self.runs.iter_mut().enumerate() {
            if self.half == Half::Ordinary || one >= 2 || one == place {
                run.reset(random, subject)?;
                self.met.resets[place] += 1;
            }
        }
        Ok(())
    }

    /// What lets packets come again that both runs have: in the first half, a trusted write at B in each of them, after
    /// which the register is the same; in the second, an ordinary write in each of them that captures the same.
    ///
    /// A run that has captured nothing has no trusted write that succeeds: there the life of both runs is over.
    fn meet(&mut self, subject: &mut impl Subject, random: &mut Random) -> Compared {
        let target = (random.byte(), random.below(32) as u8);
        let before = register(&self.runs[0].board);
        for run in &mut self.runs {
            let packet = match self.half {
                Half::Ordinary => write_at_b(&run.board, random),
                Half::Trusted => capturing_write(&run.board, target, random),
            };
            let (kept, reply_length) = (run.board.kept(random), random.within(16, 20));
            run.serve_packet(&packet, reply_length, kept, random, subject)?;
        }
        self.met.register_changed |= self.half == Half::Ordinary && register(&self.runs[0].board) != before;
        if !self.half.may_meet([&self.runs[0].board, &self.runs[1].board]) {
            self.calls_left = 0;
        }
        Ok(())
    }

    fn view<'call>(&'call self, packet: &'call [u8], served: [Served; 2]) -> HalfView<'call> {
        let [first, second] = &self.runs;
        HalfView {
            half: self.half,
            descriptions: [first.board.description, second.board.description],
            packet,
            served,
            written: [first.written(served[0]), second.written(served[1])],
            boards: boards(&first.board, &second.board),
        }
    }

    /// Uses up a call of the life of both runs. Where none is left, both begin anew, in one half or the other.
    fn live(&mut self, random: &mut Random) {
        if self.calls_left == 0 {
            self.calls_left = random.within(1, LONGEST_LIFE);
            self.met = Met::default();
            self.half = random.pick(&HALVES);
            let [first, second] = &mut self.runs;
            first.renew(random);
            second.renew(random);
            self.half.relate([&mut first.board, &mut second.board], random);
        }
        self.calls_left -= 1;
    }
}
