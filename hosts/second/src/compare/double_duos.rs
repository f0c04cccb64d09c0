//! Packets for a board of two functions that are served twice or more, with equally long replies and nothing between.

use thawribbon::raw::Description;

use super::difference::Difference;
use super::doubles::some_times;
use super::duo_bench::DuoBench;
use super::subject::{DuoServed, Subject};
use crate::classes::{DuoFirstView, Given, Tally, Times, count_duo_first, count_times, expect_again};
use crate::generate::{DuoCase, DuoFaultMaker, DuoPacketMaker, Random};

/// A board of two functions, and the packets for it.
pub struct DoubleDuos {
    bench: DuoBench,
    packet_maker: DuoPacketMaker,
    fault_maker: DuoFaultMaker,
}

impl DoubleDuos {
    pub fn new() -> Self {
        Self {
            bench: DuoBench::spent(),
            packet_maker: DuoPacketMaker::new(),
            fault_maker: DuoFaultMaker::new(),
        }
    }

    /// One packet, served several times in a row.
    pub fn double(
        &mut self,
        subject: &mut impl Subject,
        random: &mut Random,
        tally: &mut Tally,
    ) -> Result<(), Box<Difference>> {
        self.bench.live(random);
        let case = self.case(random);
        self.load(&case, random);
        let descriptions = case.sides.map(|side| side.description);
        let kept = case.sides.map(|side| side.kept);
        let first = self.bench.serve(descriptions, kept, subject)?;
        let given = Given::new(first.number, self.bench.written(first));
        let view = DuoFirstView {
            descriptions,
            packet: &case.shared().packet,
            given,
        };
        count_duo_first(&view, tally);
        let times = some_times(random);
        for _ in 1..times {
            let shared = case.shared();
            self.bench.load(&shared.packet, shared.reply_length, random);
            self.again(descriptions, first, given, subject)?;
        }
        count_times(&Times { times, given }, tally);
        for side in &mut self.bench.duo.sides {
            side.undo_doubling();
        }
        self.bench.keep(first);
        Ok(())
    }

    fn case(&mut self, random: &mut Random) -> DuoCase {
        let duo = &self.bench.duo;
        let packet = self.packet_maker.sound(duo, random);
        let mut case = DuoCase::sound(duo, packet, random);
        let faults = random.weighted(&[77, 20, 3]);
        self.fault_maker.put_some(faults, &mut case, random);
        case
    }

    /// Puts errors that have come up, a case's doubly marked bits, its packet, a random reply and the lengths in place.
    fn load(&mut self, case: &DuoCase, random: &mut Random) {
        let bench = &mut self.bench;
        for (side, case) in bench.duo.sides.iter_mut().zip(&case.sides) {
            side.raise(case.packet.offset(), random);
            side.double(case.doubled);
            side.lend(case.lengths);
        }
        let shared = case.shared();
        bench.load(&shared.packet, shared.reply_length, random);
    }

    /// Serves the packet once more, with what was captured first. Where anything is not as it was then, the run stops.
    fn again(
        &mut self,
        descriptions: [Description; 2],
        first: DuoServed,
        given: Given,
        subject: &mut impl Subject,
    ) -> Result<(), Box<Difference>> {
        let bench = &mut self.bench;
        let again = bench.serve(descriptions, first.kept, subject)?;
        let mut spaces = bench.duo.sides.iter().flat_map(|side| [&side.ordinary, &side.trusted]);
        let stays = spaces.all(|space| space.before() == space.ours());
        let rest = [bench.reply.before(), bench.reply.ours()].map(|reply| &reply[again.length..]);
        expect_again(
            [given, Given::new(again.number, bench.written(again))],
            stays && again == first && rest[0] == rest[1],
            bench.packet.ours(),
        );
        Ok(())
    }
}
