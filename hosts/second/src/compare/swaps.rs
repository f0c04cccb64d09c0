//! Two writes that differ in their enables, in both orders, and one with the enables of both. Request 12/13: they "may be
//! swapped, and leave what one write with both sets of enables leaves". Each order is run on the same board from the same
//! state, served by the model and by the subject and compared, and what they leave is held against one another.

use super::difference::Difference;
use super::stand::Stand;
use super::subject::Subject;
use super::switch::Switch;
use crate::classes::{
    Given, OrdersView, SwapView, Tally, count_other_data, count_read_between, count_swap, expect_swapped,
};
use crate::generate::{Board, Packet, Random, Snapshot, Swap, SwapMaker};

/// A board of one function or of two, a router that a board of one function may be behind, and the maker of writes.
pub struct Swaps<Bench> {
    bench: Bench,
    switch: Switch,
    is_routed: bool,
    maker: SwapMaker,
}

/// What a comparison answers.
type Compared<Answer> = Result<Answer, Box<Difference>>;

impl<Bench: Stand> Swaps<Bench> {
    pub fn new() -> Self {
        Self {
            bench: Bench::spent(),
            switch: Switch::new(),
            is_routed: false,
            maker: SwapMaker::new(),
        }
    }

    /// Two writes in both orders: as the request has them, with a read between, or with other data in one of them.
    pub fn swap(&mut self, subject: &mut impl Subject, random: &mut Random, tally: &mut Tally) -> Compared<()> {
        if self.bench.live(random) {
            self.is_routed = self.bench.sides().len() == 1 && random.percent(35);
            self.switch.renew(random);
        }
        let side = random.below(self.bench.sides().len());
        if random.percent(5) {
            self.bench.reset(random, subject)?;
        }
        if self.is_routed {
            self.capture_by_the_router(random, subject)?;
        } else {
            self.bench.let_capture(side, random, subject)?;
        }
        let port = self.is_routed.then(|| self.switch.backplane.port());
        let way = if self.is_routed {
            0
        } else {
            random.weighted(&[76, 12, 12])
        };
        let swap = self.maker.draw(&self.bench.sides()[side], port, way == 0, random);
        if random.percent(60) {
            self.bench.sides_mut()[side].raise_at(swap.first.offset());
        }
        match way {
            0 => self.swap_plainly(side, &swap, subject, random, tally),
            1 => self.swap_around_a_read(side, &swap, subject, random, tally),
            _ => self.swap_other_data(side, swap, subject, random, tally),
        }
    }

    /// Both orders, and the one write.
    fn swap_plainly(
        &mut self,
        side: usize,
        swap: &Swap,
        subject: &mut impl Subject,
        random: &mut Random,
        tally: &mut Tally,
    ) -> Compared<()> {
        let start = Snapshot::of(self.bench.sides());
        let (given, left) = self.both_orders(swap, &start, subject, random)?;
        start.put(self.bench.sides_mut());
        let both = self.send(&swap.both, random, subject)?;
        let with_both = Snapshot::of(self.bench.sides());
        expect_swapped(swap, given, both, [&left[0], &left[1], &with_both]);
        let board = &self.bench.sides()[side];
        let view = SwapView {
            description: board.description,
            functions: self.bench.sides().len(),
            side,
            is_routed: self.is_routed,
            swap,
            marks: [board.ordinary_marks.ours(), board.trusted_marks.ours()],
            start: &start.sides[side],
            left: &with_both.sides[side],
        };
        count_swap(&view, tally);
        Ok(())
    }

    /// Both orders, each with a read of the word between. The two still leave the same.
    fn swap_around_a_read(
        &mut self,
        side: usize,
        swap: &Swap,
        subject: &mut impl Subject,
        random: &mut Random,
        tally: &mut Tally,
    ) -> Compared<()> {
        let read = swap.read_between(&self.bench.sides()[side], random);
        let start = Snapshot::of(self.bench.sides());
        let mut reads = Vec::new();
        let mut left = Vec::new();
        for [first, second] in [[&swap.first, &swap.second], [&swap.second, &swap.first]] {
            start.put(self.bench.sides_mut());
            self.send(first, random, subject)?;
            reads.push(self.send(&read, random, subject)?);
            self.send(second, random, subject)?;
            left.push(Snapshot::of(self.bench.sides()));
        }
        let view = OrdersView {
            description: self.bench.sides()[side].description,
            swap,
            leaves_the_same: left[0] == left[1],
            changes: left[0] != start,
        };
        count_read_between(&view, [reads[0], reads[1]], &read, tally);
        Ok(())
    }

    /// Both orders, where the second has other data.
    fn swap_other_data(
        &mut self,
        side: usize,
        swap: Swap,
        subject: &mut impl Subject,
        random: &mut Random,
        tally: &mut Tally,
    ) -> Compared<()> {
        let swap = swap.with_other_data(random);
        let start = Snapshot::of(self.bench.sides());
        let (given, left) = self.both_orders(&swap, &start, subject, random)?;
        let view = OrdersView {
            description: self.bench.sides()[side].description,
            swap: &swap,
            leaves_the_same: left[0] == left[1],
            changes: left[0] != start,
        };
        count_other_data(&view, given, tally);
        Ok(())
    }

    /// The first before the second, and the second before the first, each from the same state: in each order what the first
    /// and the second were given, and what was left.
    fn both_orders(
        &mut self,
        swap: &Swap,
        start: &Snapshot,
        subject: &mut impl Subject,
        random: &mut Random,
    ) -> Compared<([[Given; 2]; 2], [Snapshot; 2])> {
        let first = self.send(&swap.first, random, subject)?;
        let second = self.send(&swap.second, random, subject)?;
        let left = Snapshot::of(self.bench.sides());
        start.put(self.bench.sides_mut());
        let second_before = self.send(&swap.second, random, subject)?;
        let first_behind = self.send(&swap.first, random, subject)?;
        let left_then = Snapshot::of(self.bench.sides());
        Ok(([[first, second], [first_behind, second_before]], [left, left_then]))
    }

    /// Gives a packet to the board, directly or through the router, with a reply of any sufficient size.
    fn send(&mut self, packet: &Packet, random: &mut Random, subject: &mut impl Subject) -> Compared<Given> {
        let reply_length = random.within(16, 24);
        if self.is_routed {
            let left = self.switch.through(packet, random, subject)?;
            return self.bench.give(&left, reply_length, random, subject);
        }
        self.bench.give(packet, reply_length, random, subject)
    }

    /// Lets a board behind a port that has not captured the port's secondary do so, most of the time.
    fn capture_by_the_router(&mut self, random: &mut Random, subject: &mut impl Subject) -> Compared<()> {
        let (board, port): (&Board, _) = (&self.bench.sides()[0], self.switch.backplane.port());
        if board.capture.is_some_and(|(bus, _)| bus == port.secondary) || random.percent(25) {
            return Ok(());
        }
        let packet = self.maker.draw(board, Some(port), false, random).first;
        self.send(&packet, random, subject).map(|_| ())
    }
}
