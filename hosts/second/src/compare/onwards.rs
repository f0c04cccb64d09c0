//! Packets that go through a router and on to a board: each of the two steps is done by the model and by the subject and
//! compared, and what it came to is held against the edition.

use thawribbon::raw::Port;

use super::bench::Bench;
use super::difference::Difference;
use super::routing::route;
use super::subject::Subject;
use crate::classes::{OnwardView, Tally, count_onward};
use crate::generate::{Backplane, LONGEST_LIST, LONGEST_PACKET, PacketMaker, Random, any_port};
use crate::twin::Twin;

/// A board behind a router, and the maker of packets for it.
pub struct Onwards {
    bench: Bench,
    backplane: Backplane,
    ports: Twin<Port>,
    packet: Twin<u8>,
    maker: PacketMaker,
}

impl Onwards {
    pub fn new() -> Self {
        Self {
            bench: Bench::spent(),
            backplane: Backplane {
                ports: Vec::new(),
                place: 0,
            },
            ports: Twin::new(LONGEST_LIST),
            packet: Twin::new(LONGEST_PACKET),
            maker: PacketMaker::new(),
        }
    }

    /// One packet: a call of `route` and one of `serve`. What the one writes, the other reads, in the same buffer.
    pub fn onward(
        &mut self,
        subject: &mut impl Subject,
        random: &mut Random,
        tally: &mut Tally,
    ) -> Result<(), Box<Difference>> {
        self.live(random);
        let bench = &mut self.bench;
        let packet = self.backplane.packet(&bench.board, &mut self.maker, random);
        self.packet.set(0, &packet.bytes);
        self.packet.lend(packet.length);
        bench.packet.refill(|bytes| random.fill(bytes));
        bench.packet.lend(random.within(20, LONGEST_PACKET));
        let routed = route(&mut self.ports, &mut self.packet, &mut bench.packet, subject)?;
        bench.packet.lend(routed.length);
        bench.lend_reply(random.within(16, 20), random);
        let (capture, kept) = (bench.board.capture, bench.board.kept(random));
        let served = bench.serve(bench.board.description, kept, subject)?;
        bench.keep(served);
        let board = &bench.board;
        let view = OnwardView {
            edition: board.description.edition,
            place: self.backplane.place,
            port: self.backplane.port(),
            sent: &packet,
            routed,
            left: bench.packet.ours(),
            served,
            written: bench.written(served),
            ordinary: [board.ordinary.before(), board.ordinary.ours()],
            trusted: [board.trusted.before(), board.trusted.ours()],
            captures: [capture, board.capture],
        };
        count_onward(&view, tally);
        Ok(())
    }

    /// Uses up a call of the board's life. A new board is behind another router.
    fn live(&mut self, random: &mut Random) {
        if self.bench.live(random) {
            self.backplane = Backplane::draw(random);
            self.ports.refill(|ports| ports.fill_with(|| any_port(random)));
            self.ports.shift(random.below(8));
            self.ports.set(0, &self.backplane.ports);
            self.ports.lend(self.backplane.ports.len());
            self.packet.refill(|bytes| random.fill(bytes));
            self.packet.shift(random.below(8));
        }
    }
}
