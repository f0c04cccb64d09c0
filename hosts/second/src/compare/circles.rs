//! Circles: a request is written, a board serves it, and its completion is read back. Each of the three steps is done by
//! the model and by the subject, compared, and what it came to is held against the board.

use thawribbon::raw::{Heard, Parts};

use super::asking::{read_completion, write_request};
use super::bench::Bench;
use super::difference::Difference;
use super::reference::meaning;
use super::subject::Subject;
use crate::classes::{CircleView, Tally, count_circle};
use crate::generate::{Board, LONGEST_PACKET, PacketMaker, PartsMaker, Random};

/// The least room for a reply, and also for any request.
const ROOM: usize = 16;

/// A board, and the maker of what is asked of it.
pub struct Circles {
    bench: Bench,
    maker: PacketMaker,
}

impl Circles {
    pub fn new() -> Self {
        Self {
            bench: Bench::spent(),
            maker: PacketMaker::new(),
        }
    }

    /// One circle: a call of `write_request`, one of `serve` and one of `read_completion`. What the one writes, the next
    /// reads, in the same buffer.
    pub fn circle(
        &mut self,
        subject: &mut impl Subject,
        random: &mut Random,
        tally: &mut Tally,
    ) -> Result<(), Box<Difference>> {
        let bench = &mut self.bench;
        bench.live(random);
        let parts = PartsMaker::of(&self.maker.fields(&bench.board, true, random), random);
        bench.board.raise(parts.offset as usize, random);
        bench.packet.refill(|bytes| random.fill(bytes));
        bench.packet.lend(random.within(ROOM, LONGEST_PACKET));
        let written = write_request(parts, &mut bench.packet, subject)?;
        bench.packet.lend(written.length);
        bench.lend_reply(random.within(ROOM, 20), random);
        let (capture, kept) = (bench.board.capture, bench.board.kept(random));
        let served = bench.serve(bench.board.description, kept, subject)?;
        bench.reply.lend(served.length);
        let heard = read_completion(&mut bench.reply, subject)?;
        bench.board.capture = meaning(served.capture);
        count_circle(&view(&bench.board, parts, capture, heard), tally);
        Ok(())
    }
}

/// What a circle came to: of the spaces as they were before and are after.
fn view(board: &Board, parts: Parts, capture: Option<(u8, u8)>, heard: Heard) -> CircleView<'_> {
    CircleView {
        parts,
        description: board.description,
        capture,
        captured_then: board.capture,
        heard,
        ordinary: [board.ordinary.before(), board.ordinary.ours()],
        ordinary_rules: board.ordinary_rules.ours(),
        ordinary_marks: board.ordinary_marks.ours(),
        trusted: [board.trusted.before(), board.trusted.ours()],
        trusted_rules: board.trusted_rules.ours(),
        trusted_marks: board.trusted_marks.ours(),
    }
}
