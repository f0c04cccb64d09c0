//! Packets that are repeated after something else: served, something between, and served again, each time by the model and
//! by the subject and compared. What may then be otherwise, and what may not, is counted.

use super::difference::Difference;
use super::stand::Stand;
use super::subject::Subject;
use crate::classes::{BetweenView, Given, Tally, count_between};
use crate::generate::{Between, BetweenMaker, Packet, Random, Snapshot, some_reply_length};

/// A board of one function or of two, and the maker of packets for it.
pub struct Betweens<Bench> {
    bench: Bench,
    maker: BetweenMaker,
}

impl<Bench: Stand> Betweens<Bench> {
    pub fn new() -> Self {
        Self {
            bench: Bench::spent(),
            maker: BetweenMaker::new(),
        }
    }

    /// A packet, something between, and the packet again.
    pub fn between(
        &mut self,
        subject: &mut impl Subject,
        random: &mut Random,
        tally: &mut Tally,
    ) -> Result<(), Box<Difference>> {
        self.bench.live(random);
        let functions = self.bench.sides().len();
        let side = random.below(functions);
        let kind = Between::draw(functions, random);
        self.bench.let_capture(side, random, subject)?;
        if kind == Between::OtherFunction {
            self.bench.let_capture(1 - side, random, subject)?;
        }
        let packet = self.maker.repeated(kind, &self.bench.sides()[side], random);
        if kind != Between::Errors && random.percent(50) {
            self.bench.sides_mut()[side].raise_at(packet.offset());
        }
        let reply_length = some_reply_length(random);
        let first = self.bench.give(&packet, reply_length, random, subject)?;
        let after_first = Snapshot::of(self.bench.sides());
        let between = self.happen(kind, side, &packet, subject, random)?;
        let after_between = Snapshot::of(self.bench.sides());
        let again = self.bench.give(&packet, reply_length, random, subject)?;
        let view = BetweenView {
            kind,
            side,
            descriptions: self.bench.sides().iter().map(|side| side.description).collect(),
            packet: &packet,
            between,
            given: [first, again],
            after: [&after_first, &after_between, &Snapshot::of(self.bench.sides())],
        };
        count_between(&view, tally);
        Ok(())
    }

    /// Lets something come between. Where it is a packet, the answer is that and what it was given.
    fn happen(
        &mut self,
        kind: Between,
        side: usize,
        repeated: &Packet,
        subject: &mut impl Subject,
        random: &mut Random,
    ) -> Result<Option<(Packet, Given)>, Box<Difference>> {
        match kind {
            Between::Reset => return self.bench.reset(random, subject).map(|()| None),
            Between::Errors => {
                self.bench.sides_mut()[side].raise_at(repeated.offset());
                return Ok(None);
            }
            _ => {}
        }
        let whose = if kind == Between::OtherFunction { 1 - side } else { side };
        let packet = self.maker.between(kind, repeated, &self.bench.sides()[whose], random);
        let refusal = if kind == Between::Refusal { random.below(4) } else { 3 };
        let reply_length = if refusal == 0 {
            random.below(16)
        } else {
            random.within(16, 20)
        };
        let right = self.bench.sides()[side].description;
        if refusal == 1 {
            self.bench.sides_mut()[side].description.a |= 1;
        }
        let given = self.bench.give(&packet, reply_length, random, subject);
        self.bench.sides_mut()[side].description = right;
        Ok(Some((packet, given?)))
    }
}
