//! Packets that are served twice or more, with equally long replies and nothing between. Request 12/13: "a packet served
//! twice gives the same reply twice and leaves what one leaves". Each is served by the model and by the subject and compared,
//! and what came back is held against what came back first.

use thawribbon::raw::{Description, Served};

use super::bench::Bench;
use super::difference::Difference;
use super::reference::meaning;
use super::subject::Subject;
use crate::classes::{FirstView, Given, Tally, Times, count_first, count_times, expect_again};
use crate::generate::{FaultMaker, PacketMaker, Random, ServeCase};

/// A board, and the packets for it.
pub struct Doubles {
    bench: Bench,
    packet_maker: PacketMaker,
    fault_maker: FaultMaker,
}

/// How often a packet is served in a row: mostly twice.
pub fn some_times(random: &mut Random) -> usize {
    match random.weighted(&[75, 13, 7, 5]) {
        0 => 2,
        1 => 3,
        2 => 4,
        _ => random.within(5, 8),
    }
}

impl Doubles {
    pub fn new() -> Self {
        Self {
            bench: Bench::spent(),
            packet_maker: PacketMaker::new(),
            fault_maker: FaultMaker::new(),
        }
    }

    /// One packet, served several times in a row.
    pub fn double(
        &mut self,
        subject: &mut impl Subject,
        random: &mut Random,
        tally: &mut Tally,
    ) -> Result<(), Box<Difference>> {
        self.bench.live(random);
        let case = self.case(random);
        self.load(&case, random);
        let first = self.bench.serve(case.description, case.kept, subject)?;
        let given = Given::new(first.number, self.bench.written(first));
        self.count(&case, first, given, tally);
        let times = some_times(random);
        for _ in 1..times {
            self.bench.lend_reply(case.reply_length, random);
            self.again(case.description, first, given, subject)?;
        }
        count_times(&Times { times, given }, tally);
        self.bench.board.undo_doubling();
        self.bench.keep(first);
        Ok(())
    }

    fn case(&mut self, random: &mut Random) -> ServeCase {
        let board = &self.bench.board;
        if random.percent(3) {
            return ServeCase::noise(board, random);
        }
        let packet = self.packet_maker.sound(board, false, random);
        let mut case = ServeCase::sound(board, packet, random);
        let faults = random.weighted(&[70, 25, 5]);
        self.fault_maker.put_some(faults, &mut case, random);
        if random.percent(5) {
            case.reply_length = random.below(16);
        }
        case
    }

    /// Puts errors that have come up, a case's doubly marked bits, its packet, a random reply and the lengths in place.
    fn load(&mut self, case: &ServeCase, random: &mut Random) {
        let bench = &mut self.bench;
        bench.board.raise(case.packet.offset(), random);
        bench.board.double(case.doubled);
        bench.board.lend(case.lengths);
        bench.load(&case.packet, case.reply_length, random);
    }

    /// Serves the packet once more, with what was captured first. Where anything is not as it was then, the run stops.
    fn again(
        &mut self,
        description: Description,
        first: Served,
        given: Given,
        subject: &mut impl Subject,
    ) -> Result<(), Box<Difference>> {
        let bench = &mut self.bench;
        let again = bench.serve(description, first.capture, subject)?;
        let [ordinary, trusted] = [&bench.board.ordinary, &bench.board.trusted];
        let stays = ordinary.before() == ordinary.ours() && trusted.before() == trusted.ours();
        let rest = [bench.reply.before(), bench.reply.ours()].map(|reply| &reply[again.length..]);
        expect_again(
            [given, Given::new(again.number, bench.written(again))],
            stays && again == first && rest[0] == rest[1],
            bench.packet.ours(),
        );
        Ok(())
    }

    fn count(&self, case: &ServeCase, first: Served, given: Given, tally: &mut Tally) {
        let board = &self.bench.board;
        let view = FirstView {
            description: case.description,
            packet: &case.packet,
            reply_length: case.reply_length,
            given,
            before: [board.ordinary.before(), board.trusted.before()],
            after: [board.ordinary.ours(), board.trusted.ours()],
            marks: [board.ordinary_marks.ours(), board.trusted_marks.ours()],
            captures: [meaning(case.kept), meaning(first.capture)],
        };
        count_first(&view, tally);
    }
}
