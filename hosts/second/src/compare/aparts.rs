//! Two runs of a board of two functions that share packets for one of them: request 11/13's own sentence, and demand 3 for
//! each function. Each packet is served by the model and by the subject, and what the two runs came to is compared.

use thawribbon::raw::Description;

use super::bench::boards;
use super::difference::Difference;
use super::duo_bench::DuoBench;
use super::subject::{DuoServed, Subject};
use crate::classes::{ApartMet, ApartView, OwnView, Tally, count_apart_own, count_apart_shared, look_at_apart};
use crate::generate::{
    Apart, Cursor, Duo, DuoPacketMaker, Half, Packet, Random, Shared, capturing_write, some_reply_length, write_at_b,
};

/// What a comparison answers.
type Compared = Result<(), Box<Difference>>;

/// The most calls that two runs live for.
const LONGEST_LIFE: usize = 200;

/// Two runs, and the maker of their packets.
pub struct Aparts {
    runs: [DuoBench; 2],
    apart: Apart,
    turns: Cursor,
    maker: DuoPacketMaker,
    met: ApartMet,
    calls_left: usize,
}

impl Aparts {
    pub fn new() -> Self {
        Self {
            runs: [DuoBench::spent(), DuoBench::spent()],
            apart: Apart::at(0),
            turns: Cursor::new(Apart::TURNS),
            maker: DuoPacketMaker::new(),
            met: ApartMet::default(),
            calls_left: 0,
        }
    }

    /// One step: a packet that both runs have, one that one of them has, a reset, or what makes the two meet again.
    pub fn step(&mut self, subject: &mut impl Subject, random: &mut Random, tally: &mut Tally) -> Compared {
        self.live(random);
        let may_meet = self.apart.may_meet(self.duos());
        let shared = if may_meet { 48 } else { 0 };
        let meeting = match self.apart.shared {
            Shared::All => 0,
            Shared::Half(_) if may_meet => 6,
            Shared::Half(_) => 48,
        };
        match random.weighted(&[shared, 42, 4, meeting]) {
            0 => self.shared(subject, random, tally)?,
            1 => self.own(subject, random, tally)?,
            2 => self.reset(subject, random)?,
            _ => self.meet(subject, random)?,
        }
        let [first, second] = self.apart.boards(self.duos());
        look_at_apart(self.apart, &boards(first, second));
        Ok(())
    }

    fn duos(&self) -> [&Duo; 2] {
        self.runs.each_ref().map(|run| &run.duo)
    }

    /// A packet that both runs have, with a reply of the same size.
    fn shared(&mut self, subject: &mut impl Subject, random: &mut Random, tally: &mut Tally) -> Compared {
        let (apart, duos) = (self.apart, self.runs.each_ref().map(|run| &run.duo));
        let (one, whom) = (duos[random.below(2)], apart.whom_shared(random));
        let packet = self
            .maker
            .draw_for(whom, one, random, |packet| apart.is_shared(packet, duos));
        let reply_length = some_reply_length(random);
        let mut served = [DuoServed::default(); 2];
        for (run, served) in self.runs.iter_mut().zip(&mut served) {
            let kept = run.duo.kept(random);
            *served = run.serve_packet(&packet, reply_length, kept, random, subject)?;
        }
        let mut met = self.met;
        count_apart_shared(&self.view(&packet, served), &mut met, tally);
        self.met = met;
        Ok(())
    }

    /// A packet of one of the runs, with a reply of any size.
    fn own(&mut self, subject: &mut impl Subject, random: &mut Random, tally: &mut Tally) -> Compared {
        let (apart, one) = (self.apart, random.below(2));
        let (run, whom) = (&mut self.runs[one], apart.whom_own(random));
        let duo = &run.duo;
        let packet = self
            .maker
            .draw_for(whom, duo, random, |packet| !apart.is_shared(packet, [duo, duo]));
        let (kept, reply_length) = (run.duo.kept(random), some_reply_length(random));
        let served = run.serve_packet(&packet, reply_length, kept, random, subject)?;
        let view = OwnView {
            apart,
            run: one,
            descriptions: descriptions(&run.duo),
            packet: &packet,
            number: served.number,
            written: run.written(served),
        };
        count_apart_own(&view, &mut self.met, tally);
        Ok(())
    }

    /// A reset: of both runs, and in the second half of demand 3 of one of them or of both.
    fn reset(&mut self, subject: &mut impl Subject, random: &mut Random) -> Compared {
        let (one, of_both) = (random.below(4), self.apart.shared != Shared::Half(Half::Trusted));
        for (place, run) in self.runs.iter_mut().enumerate() {
            if of_both || one >= 2 || one == place {
                run.reset(random, subject)?;
                self.met.resets[place] += 1;
            }
        }
        Ok(())
    }

    /// What lets packets come again that both runs have in a half of demand 3: a trusted write at the function's B in each
    /// of them, after which its register is the same, or an ordinary write in each of them that captures the same.
    ///
    /// A run in which the function has captured nothing has no trusted write that succeeds: there the life of both is over.
    fn meet(&mut self, subject: &mut impl Subject, random: &mut Random) -> Compared {
        let target = (random.byte(), random.below(32) as u8);
        for run in &mut self.runs {
            let board = &run.duo.sides[self.apart.side];
            let packet: Packet = match self.apart.shared {
                Shared::Half(Half::Trusted) => capturing_write(board, target, random),
                _ => write_at_b(board, random),
            };
            let (kept, reply_length) = (run.duo.kept(random), random.within(16, 20));
            run.serve_packet(&packet, reply_length, kept, random, subject)?;
        }
        if !self.apart.may_meet(self.duos()) {
            self.calls_left = 0;
        }
        Ok(())
    }

    fn view<'call>(&'call self, packet: &'call Packet, served: [DuoServed; 2]) -> ApartView<'call> {
        let [first, second] = &self.runs;
        let (side, other) = (self.apart.side, 1 - self.apart.side);
        ApartView {
            apart: self.apart,
            descriptions: [descriptions(&first.duo), descriptions(&second.duo)],
            packet,
            answers: served.map(|served| (served.number, served.length)),
            written: [first.written(served[0]), second.written(served[1])],
            boards: boards(&first.duo.sides[side], &second.duo.sides[side]),
            others: boards(&first.duo.sides[other], &second.duo.sides[other]),
        }
    }

    /// Uses up a call of the life of both runs. Where none is left, both begin anew, and share packets of another sort.
    fn live(&mut self, random: &mut Random) {
        if self.calls_left == 0 {
            self.calls_left = random.within(1, LONGEST_LIFE);
            self.met = ApartMet::default();
            self.apart = Apart::at(self.turns.sweep());
            let [first, second] = &mut self.runs;
            first.renew(random);
            second.renew(random);
            self.apart.relate([&mut first.duo, &mut second.duo], random);
        }
        self.calls_left -= 1;
    }
}

fn descriptions(duo: &Duo) -> [Description; 2] {
    duo.sides.each_ref().map(|side| side.description)
}
