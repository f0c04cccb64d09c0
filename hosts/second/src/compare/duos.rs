//! Packets and resets on boards of two functions: made, served by the model and by the subject, compared and counted.

use thawribbon::raw::Capture;

use super::difference::Difference;
use super::duo_bench::{DuoBench, reset_pair};
use super::reference::meaning;
use super::subject::{DuoServed, Subject};
use crate::classes::{DuoHistory, DuoView, Group, SideView, Tally, count_duo, count_duo_reset};
use crate::generate::{DuoCase, DuoFaultMaker, DuoPacketMaker, Random};

/// A board of two functions, and the packets for it.
pub struct Duos {
    bench: DuoBench,
    history: DuoHistory,
    packet_maker: DuoPacketMaker,
    fault_maker: DuoFaultMaker,
}

impl Duos {
    pub fn new() -> Self {
        Self {
            bench: DuoBench::spent(),
            history: DuoHistory::default(),
            packet_maker: DuoPacketMaker::new(),
            fault_maker: DuoFaultMaker::new(),
        }
    }

    /// One call of `serve_pair`.
    pub fn serve(
        &mut self,
        subject: &mut impl Subject,
        random: &mut Random,
        tally: &mut Tally,
    ) -> Result<(), Box<Difference>> {
        self.live(random);
        let is_noise = random.percent(4);
        let case = self.case(is_noise, random);
        self.load(&case, random);
        let descriptions = case.sides.map(|side| side.description);
        let kept = case.sides.map(|side| side.kept);
        let served = self.bench.serve(descriptions, kept, subject)?;
        tally.add_if(is_noise, Group::Noise, 16);
        self.count(&case, served, tally);
        for side in &mut self.bench.duo.sides {
            side.undo_doubling();
        }
        self.bench.keep(served);
        Ok(())
    }

    /// One call of `reset_pair`: mostly for the board, else for captures of random bytes that are no board's.
    pub fn reset(
        &mut self,
        subject: &mut impl Subject,
        random: &mut Random,
        tally: &mut Tally,
    ) -> Result<(), Box<Difference>> {
        self.live(random);
        let is_noise = random.percent(25);
        let kept = if is_noise {
            [(); 2].map(|()| {
                let [captured, bus, device, ..] = random.bits().to_le_bytes();
                Capture { captured, bus, device }
            })
        } else {
            self.bench.duo.kept(random)
        };
        let after = reset_pair(kept, subject)?;
        tally.add_if(is_noise, Group::Noise, 17);
        count_duo_reset(kept.map(meaning), after.map(meaning), tally);
        if !is_noise {
            self.bench.hold(after);
        }
        Ok(())
    }

    /// Uses up a call of the board's life, and begins a new history with a new board.
    fn live(&mut self, random: &mut Random) {
        if self.bench.live(random) {
            self.history = DuoHistory::default();
        }
    }

    fn case(&mut self, is_noise: bool, random: &mut Random) -> DuoCase {
        let duo = &self.bench.duo;
        if is_noise {
            return DuoCase::noise(duo, random);
        }
        let faults = random.weighted(&[58, 30, 9, 3]);
        let packet = self.packet_maker.sound(duo, random);
        let mut case = DuoCase::sound(duo, packet, random);
        self.fault_maker.put_some(faults, &mut case, random);
        case
    }

    /// Puts errors that have come up, a case's doubly marked bits, its packet, a random reply and the lengths in place.
    fn load(&mut self, case: &DuoCase, random: &mut Random) {
        let bench = &mut self.bench;
        for (side, case) in bench.duo.sides.iter_mut().zip(&case.sides) {
            side.raise(case.packet.offset(), random);
            side.double(case.doubled);
            side.lend(case.lengths);
        }
        let shared = case.shared();
        bench.load(&shared.packet, shared.reply_length, random);
    }

    fn count(&mut self, case: &DuoCase, served: DuoServed, tally: &mut Tally) {
        let sides = self.bench.duo.sides.each_ref().map(|side| SideView {
            ordinary: [side.ordinary.before(), side.ordinary.ours()],
            ordinary_rules: side.ordinary_rules.ours(),
            ordinary_marks: side.ordinary_marks.ours(),
            trusted: [side.trusted.before(), side.trusted.ours()],
            trusted_rules: side.trusted_rules.ours(),
            trusted_marks: side.trusted_marks.ours(),
        });
        let view = DuoView {
            case,
            sides,
            number: served.number,
            length: served.length,
            captured_then: served.kept.map(meaning),
            replies: [self.bench.reply.before(), self.bench.reply.ours()],
        };
        count_duo(&view, &mut self.history, tally);
    }
}
