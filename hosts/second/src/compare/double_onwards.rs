//! Packets that are sent through a router twice or more, and on to a board behind one of its ports: the verdict, the port and
//! the bytes that leave have to be the same again, and what the board answers and is left with. Now and then the router is
//! given another list of ports between.

use super::bench::Bench;
use super::difference::Difference;
use super::doubles::some_times;
use super::stand::Stand;
use super::subject::Subject;
use super::switch::{Passed, Switch};
use crate::classes::{Given, PassedView, Tally, count_other_list, count_passed, expect_again, expect_passed_again};
use crate::generate::{LONGEST_LEAVING, Packet, PacketMaker, Random, RunPacketMaker, Snapshot, some_reply_length};

/// A board behind a router, and the makers of packets for it.
pub struct DoubleOnwards {
    bench: Bench,
    switch: Switch,
    maker: PacketMaker,
    spoilt: RunPacketMaker,
    /// The length of the board's reply, for all times that a packet is sent.
    reply_length: usize,
}

impl DoubleOnwards {
    pub fn new() -> Self {
        Self {
            bench: Bench::spent(),
            switch: Switch::new(),
            maker: PacketMaker::new(),
            spoilt: RunPacketMaker::new(),
            reply_length: 0,
        }
    }

    /// One packet, sent several times in a row.
    pub fn double(
        &mut self,
        subject: &mut impl Subject,
        random: &mut Random,
        tally: &mut Tally,
    ) -> Result<(), Box<Difference>> {
        if self.bench.live(random) {
            self.switch.renew(random);
        }
        let packet = self.packet(random);
        self.reply_length = some_reply_length(random);
        let room = if random.percent(90) {
            random.within(20, LONGEST_LEAVING)
        } else {
            random.below(20)
        };
        let is_spoilt = random.percent(6);
        if is_spoilt {
            self.switch.spoil_list(random);
        }
        let first = self.switch.route(&packet, room, random, subject)?;
        let given = self.arrive(&first, random, subject, tally)?;
        for _ in 1..some_times(random) {
            let again = self.switch.route(&packet, room, random, subject)?;
            expect_passed_again(first == again, packet.as_slice());
            self.arrive_again(&again, given, random, subject)?;
        }
        self.switch.lend_list();
        if !is_spoilt && random.percent(10) {
            self.switch.renew(random);
            let again = self.switch.route(&packet, room, random, subject)?;
            count_other_list([first.routed, again.routed], tally);
        }
        Ok(())
    }

    /// A packet that leaves by the board's port, one with any bus, or one with a fault.
    fn packet(&mut self, random: &mut Random) -> Packet {
        let board = &self.bench.board;
        let mut packet = self.switch.backplane.packet(board, &mut self.maker, random);
        match random.weighted(&[76, 12, 12]) {
            0 => {}
            1 => packet.bytes[8] = random.byte(),
            _ => packet = self.spoilt.spoil(packet, random),
        }
        if board.description.edition == 2 && random.percent(40) {
            packet = packet.with_bit_7(false);
        }
        packet
    }

    /// Has the board serve what left by its port, and counts it.
    fn arrive(
        &mut self,
        passed: &Passed,
        random: &mut Random,
        subject: &mut impl Subject,
        tally: &mut Tally,
    ) -> Result<Option<Given>, Box<Difference>> {
        let given = if self.switch.reaches(passed) {
            Some(self.bench.give(&passed.packet(), self.reply_length, random, subject)?)
        } else {
            None
        };
        let view = PassedView {
            edition: self.bench.board.description.edition,
            routed: passed.routed,
            left: passed.packet(),
            given,
        };
        count_passed(&view, tally);
        Ok(given)
    }

    /// Has the board serve it once more, where it left by its port.
    fn arrive_again(
        &mut self,
        passed: &Passed,
        first: Option<Given>,
        random: &mut Random,
        subject: &mut impl Subject,
    ) -> Result<(), Box<Difference>> {
        let Some(first) = first else {
            return Ok(());
        };
        let before = Snapshot::of(self.bench.sides());
        let given = self.bench.give(&passed.packet(), self.reply_length, random, subject)?;
        let stays = Snapshot::of(self.bench.sides()) == before;
        expect_again([first, given], stays, passed.packet().as_slice());
        Ok(())
    }
}
