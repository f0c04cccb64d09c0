//! Pairs: two boards side by side that differ in their editions, or in bit 7 of what they are given, and have to answer
//! alike. Each packet is served by the model and by the subject, and what the two boards came to is compared.

use thawribbon::raw::{Capture, Served};

use super::bench::{Bench, boards};
use super::difference::Difference;
use super::subject::Subject;
use crate::classes::{Boards, PairView, Tally, count_left_out, count_pair, count_pair_reset};
use crate::generate::{Board, BoardFault, Packet, RELATIONS, Random, Relation, RunPacketMaker, some_reply_length};

/// What a comparison answers.
type Compared = Result<(), Box<Difference>>;

/// The most calls that two boards live for.
const LONGEST_LIFE: usize = 200;

/// Two boards, and the maker of what they are given.
pub struct Pairs {
    first: Bench,
    second: Bench,
    relation: Relation,
    maker: RunPacketMaker,
    /// Whether a packet was left out of the second run before.
    left_out_before: bool,
    calls_left: usize,
}

impl Pairs {
    pub fn new() -> Self {
        Self {
            first: Bench::spent(),
            second: Bench::spent(),
            relation: Relation::Editions,
            maker: RunPacketMaker::new(),
            left_out_before: false,
            calls_left: 0,
        }
    }

    /// One step of two runs: a reset of both boards, a packet for both, or one for the first that the second is not given.
    pub fn step(&mut self, subject: &mut impl Subject, random: &mut Random, tally: &mut Tally) -> Compared {
        self.live(random);
        if random.percent(4) {
            return self.reset(subject, random, tally);
        }
        let packet = self.maker.draw(&self.first.board, random);
        let (packet, second_packet) = self.relation.given(packet, random);
        let capture = self.first.board.capture;
        let common = Common::draw(&self.first.board, random);
        let first = common.serve(&mut self.first, &packet, random, subject)?;
        let Some(second_packet) = second_packet else {
            self.left_out_before = true;
            count_left_out(packet.as_slice(), first, &self.boards(), tally);
            return Ok(());
        };
        let second = common.serve(&mut self.second, &second_packet, random, subject)?;
        let view = self.view(packet.as_slice(), [first, second], capture);
        count_pair(&view, self.left_out_before, tally);
        Ok(())
    }

    /// What both boards have now.
    fn boards(&self) -> Boards<'_> {
        boards(&self.first.board, &self.second.board)
    }

    fn view<'call>(
        &'call self,
        packet: &'call [u8],
        served: [Served; 2],
        capture: Option<(u8, u8)>,
    ) -> PairView<'call> {
        let (first, second) = (&self.first, &self.second);
        PairView {
            relation: self.relation,
            description: first.board.description,
            packet,
            served,
            written: [first.written(served[0]), second.written(served[1])],
            before: [first.board.ordinary.before(), first.board.trusted.before()],
            marks: [first.board.ordinary_marks.ours(), first.board.trusted_marks.ours()],
            capture,
            boards: self.boards(),
        }
    }

    fn reset(&mut self, subject: &mut impl Subject, random: &mut Random, tally: &mut Tally) -> Compared {
        let captured = self.first.board.capture.is_some();
        self.first.reset(random, subject)?;
        self.second.reset(random, subject)?;
        count_pair_reset(self.relation, captured, &self.boards(), tally);
        Ok(())
    }

    /// Uses up a call of the life of both boards. Where none is left, both are made anew, and are related in another way.
    fn live(&mut self, random: &mut Random) {
        if self.calls_left == 0 {
            self.calls_left = random.within(1, LONGEST_LIFE);
            self.first.renew(random);
            self.second.renew(random);
            self.relation = random.pick(&RELATIONS);
            self.relation.relate([&mut self.first.board, &mut self.second.board]);
            self.left_out_before = false;
        }
        self.calls_left -= 1;
    }
}

/// What is the same for both boards of a pair in a call: the length of the reply, the kept capture, and a fault.
struct Common {
    reply_length: usize,
    kept: Capture,
    fault: Option<BoardFault>,
}

impl Common {
    fn draw(board: &Board, random: &mut Random) -> Self {
        let (kept, fault) = (board.kept(random), BoardFault::draw(random));
        Self {
            reply_length: some_reply_length(random),
            kept: fault.map_or(kept, |fault| fault.kept(kept)),
            fault,
        }
    }

    /// Serves a packet on one of the boards.
    fn serve(
        &self,
        bench: &mut Bench,
        packet: &Packet,
        random: &mut Random,
        subject: &mut impl Subject,
    ) -> Result<Served, Box<Difference>> {
        bench.load(packet, self.reply_length, random);
        let right = bench.board.description;
        let description = self.fault.map_or(right, |fault| fault.description(right));
        let served = bench.serve(description, self.kept, subject)?;
        bench.keep(served);
        Ok(served)
    }
}
