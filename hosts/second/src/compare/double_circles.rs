//! Circles that are gone through twice or more: the same parts are asked with again, in equally long buffers, and the
//! completion has to read back as the same completion.

use thawribbon::raw::{Capture, Heard, Parts, Served, Written};

use super::asking::{read_completion, write_request};
use super::bench::Bench;
use super::difference::Difference;
use super::doubles::some_times;
use super::reference::meaning;
use super::subject::Subject;
use crate::classes::{CircleAgain, Tally, count_circle_again, expect_circle_again};
use crate::generate::{LONGEST_PACKET, PacketMaker, PartsMaker, Random};

/// The least room for a reply, and also for any request.
const ROOM: usize = 16;

/// A board, and the maker of what is asked of it.
pub struct DoubleCircles {
    bench: Bench,
    maker: PacketMaker,
}

/// What one round came to: what was written, how it was served, and what was heard.
#[derive(Clone, Copy, Debug, PartialEq, Eq)]
struct Round {
    written: Written,
    request: [u8; ROOM],
    served: Served,
    heard: Heard,
}

/// What all rounds have: the parts, and the lengths of the buffers for the request and for the reply.
struct Asked {
    parts: Parts,
    rooms: [usize; 2],
}

impl DoubleCircles {
    pub fn new() -> Self {
        Self {
            bench: Bench::spent(),
            maker: PacketMaker::new(),
        }
    }

    /// One circle, several times in a row.
    pub fn double(
        &mut self,
        subject: &mut impl Subject,
        random: &mut Random,
        tally: &mut Tally,
    ) -> Result<(), Box<Difference>> {
        self.bench.live(random);
        let parts = PartsMaker::of(&self.maker.fields(&self.bench.board, false, random), random);
        let rooms = [random.within(ROOM, LONGEST_PACKET), random.within(ROOM, 20)];
        let asked = Asked { parts, rooms };
        self.bench.board.raise(parts.offset as usize, random);
        let kept = self.bench.board.kept(random);
        let first = self.round(&asked, kept, random, subject)?;
        let changed = self.has_changed();
        for _ in 1..some_times(random) {
            let again = self.round(&asked, first.served.capture, random, subject)?;
            expect_circle_again(again == first && !self.has_changed(), &parts);
        }
        self.bench.board.capture = meaning(first.served.capture);
        let view = CircleAgain {
            edition: self.bench.board.description.edition,
            kind: parts.kind,
            said: first.heard.said,
            changed,
        };
        count_circle_again(&view, tally);
        Ok(())
    }

    /// Writes the request, has it served, and reads the completion.
    fn round(
        &mut self,
        asked: &Asked,
        kept: Capture,
        random: &mut Random,
        subject: &mut impl Subject,
    ) -> Result<Round, Box<Difference>> {
        let bench = &mut self.bench;
        bench.packet.refill(|bytes| random.fill(bytes));
        bench.packet.lend(asked.rooms[0]);
        let written = write_request(asked.parts, &mut bench.packet, subject)?;
        bench.packet.lend(written.length);
        let mut request = [0; ROOM];
        request[..written.length].copy_from_slice(bench.packet.ours());
        bench.lend_reply(asked.rooms[1], random);
        let served = bench.serve(bench.board.description, kept, subject)?;
        bench.reply.lend(served.length);
        let heard = read_completion(&mut bench.reply, subject)?;
        Ok(Round {
            written,
            request,
            served,
            heard,
        })
    }

    /// Whether the last round changed a byte of either space.
    fn has_changed(&self) -> bool {
        let board = &self.bench.board;
        [&board.ordinary, &board.trusted]
            .iter()
            .any(|space| space.before() != space.ours())
    }
}
