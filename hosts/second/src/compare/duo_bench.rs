//! A board of two functions with a packet and a reply for it: served by the model and by the subject, and compared.

use thawribbon::raw::{Capture, Description};

use super::bench::with_space;
use super::difference::Difference;
use super::reference::{Reference, meaning};
use super::subject::{DuoCall, DuoServed, SideCall, Subject};
use crate::generate::{Board, Duo, LONGEST_PACKET, LONGEST_REPLY, Packet, Random};
use crate::twin::Twin;

/// A board of two functions, and what is lent beside its spaces.
pub struct DuoBench {
    pub duo: Duo,
    pub packet: Twin<u8>,
    pub reply: Twin<u8>,
}

impl DuoBench {
    /// A bench whose board's life is over, to be renewed.
    pub fn spent() -> Self {
        Self {
            duo: Duo::spent(),
            packet: Twin::new(LONGEST_PACKET),
            reply: Twin::new(LONGEST_REPLY),
        }
    }

    /// Uses up a call of the board's life. With a new board the buffers get other starts, and the answer is true.
    pub fn live(&mut self, random: &mut Random) -> bool {
        let is_new = self.duo.live(random);
        if is_new {
            self.shift(random);
        }
        is_new
    }

    /// Makes the board anew, and gives the buffers other starts.
    pub fn renew(&mut self, random: &mut Random) {
        self.duo.renew(random);
        self.shift(random);
    }

    fn shift(&mut self, random: &mut Random) {
        self.packet.shift(random.below(8));
        self.reply.shift(random.below(8));
    }

    /// Lends a packet and a random reply of so many bytes, and remembers all that a call may write.
    pub fn load(&mut self, packet: &Packet, reply_length: usize, random: &mut Random) {
        self.packet.set(0, &packet.bytes);
        self.packet.lend(packet.length);
        self.reply.refill(|bytes| random.fill(bytes));
        self.reply.lend(reply_length);
        self.reply.remember();
        for side in &mut self.duo.sides {
            side.ordinary.remember();
            side.trusted.remember();
        }
    }

    /// Serves a packet with a random reply of so many bytes. What is captured then, the board keeps.
    pub fn serve_packet(
        &mut self,
        packet: &Packet,
        reply_length: usize,
        kept: [Capture; 2],
        random: &mut Random,
        subject: &mut impl Subject,
    ) -> Result<DuoServed, Box<Difference>> {
        self.load(packet, reply_length, random);
        let descriptions = self.duo.sides.each_ref().map(|side| side.description);
        let served = self.serve(descriptions, kept, subject)?;
        self.keep(served);
        Ok(served)
    }

    /// Keeps what is captured after a call. A refusal captures nothing.
    pub fn keep(&mut self, served: DuoServed) {
        if served.number == 0 {
            self.hold(served.kept);
        }
    }

    /// Gives both functions these captures.
    pub fn hold(&mut self, kept: [Capture; 2]) {
        for (side, kept) in self.duo.sides.iter_mut().zip(kept) {
            side.capture = meaning(kept);
        }
    }

    /// Resets the board by the model and by the subject.
    pub fn reset(&mut self, random: &mut Random, subject: &mut impl Subject) -> Result<(), Box<Difference>> {
        let after = reset_pair(self.duo.kept(random), subject)?;
        self.hold(after);
        Ok(())
    }

    /// What the reply has of a call that wrote so many bytes.
    pub fn written(&self, served: DuoServed) -> &[u8] {
        &self.reply.ours()[..served.length]
    }

    /// Serves the packet by the model and by the subject, all as it is lent. Both descriptions have the same edition.
    pub fn serve(
        &mut self,
        descriptions: [Description; 2],
        kept: [Capture; 2],
        subject: &mut impl Subject,
    ) -> Result<DuoServed, Box<Difference>> {
        let [primary, alternate] = &mut self.duo.sides;
        let ours = Reference.serve_pair(DuoCall {
            edition: descriptions[0].edition,
            sides: [
                ours(primary, descriptions[0], kept[0]),
                ours(alternate, descriptions[1], kept[1]),
            ],
            packet: self.packet.ours(),
            reply: self.reply.ours_mut(),
        });
        let theirs = subject.serve_pair(DuoCall {
            edition: descriptions[0].edition,
            sides: [
                theirs(primary, descriptions[0], kept[0]),
                theirs(alternate, descriptions[1], kept[1]),
            ],
            packet: self.packet.theirs(),
            reply: self.reply.theirs_mut(),
        });
        if ours == theirs && self.agrees() {
            return Ok(ours);
        }
        Err(Box::new(self.difference(descriptions, kept, ours, theirs)))
    }

    /// Whether every byte of every buffer is alike.
    fn agrees(&self) -> bool {
        let spaces = self.duo.sides.iter().flat_map(|side| {
            [
                &side.ordinary,
                &side.ordinary_rules,
                &side.ordinary_marks,
                &side.trusted,
                &side.trusted_rules,
                &side.trusted_marks,
            ]
        });
        spaces.chain([&self.packet, &self.reply]).all(Twin::agrees)
    }

    fn difference(
        &self,
        descriptions: [Description; 2],
        kept: [Capture; 2],
        ours: DuoServed,
        theirs: DuoServed,
    ) -> Difference {
        let mut places = match self.packet.ours().get(10..12) {
            Some(&[high, low]) => vec![usize::from(high & 0x0F) << 8 | usize::from(low & 0xFC)],
            _ => vec![0],
        };
        for description in descriptions {
            places.extend([description.a, description.b].map(|place| place as usize & !3));
        }
        let mut difference = Difference::new("serve_pair", ours, theirs)
            .input("descriptions of the primary and of the alternate", descriptions)
            .input("kept", kept)
            .input("the packet's offset, A and B of both", &places)
            .bytes("packet", self.packet.ours())
            .bytes("reply as lent", self.reply.before())
            .bytes("reply of the model", self.reply.ours())
            .bytes("reply of the subject", self.reply.theirs());
        for (name, side) in ["primary's", "alternate's"].into_iter().zip(&self.duo.sides) {
            let ordinary = [&side.ordinary, &side.ordinary_rules, &side.ordinary_marks];
            let trusted = [&side.trusted, &side.trusted_rules, &side.trusted_marks];
            difference = with_space(difference, &format!("{name} ordinary"), ordinary, &places);
            difference = with_space(difference, &format!("{name} trusted"), trusted, &places);
        }
        difference.look("packet", &self.packet).look("reply", &self.reply)
    }
}

/// What the model is given of one function.
fn ours(board: &mut Board, description: Description, kept: Capture) -> SideCall<'_> {
    SideCall {
        function: description.function,
        a: description.a,
        b: description.b,
        kept,
        ordinary: board.ordinary.ours_mut(),
        ordinary_rules: board.ordinary_rules.ours(),
        ordinary_marks: board.ordinary_marks.ours(),
        trusted: board.trusted.ours_mut(),
        trusted_rules: board.trusted_rules.ours(),
        trusted_marks: board.trusted_marks.ours(),
    }
}

/// What the subject is given of one function.
fn theirs(board: &mut Board, description: Description, kept: Capture) -> SideCall<'_> {
    SideCall {
        function: description.function,
        a: description.a,
        b: description.b,
        kept,
        ordinary: board.ordinary.theirs_mut(),
        ordinary_rules: board.ordinary_rules.theirs(),
        ordinary_marks: board.ordinary_marks.theirs(),
        trusted: board.trusted.theirs_mut(),
        trusted_rules: board.trusted_rules.theirs(),
        trusted_marks: board.trusted_marks.theirs(),
    }
}

/// Resets the captures of both functions by the model and by the subject.
pub fn reset_pair(kept: [Capture; 2], subject: &mut impl Subject) -> Result<[Capture; 2], Box<Difference>> {
    let (ours, theirs) = (Reference.reset_pair(kept), subject.reset_pair(kept));
    if ours == theirs {
        Ok(ours)
    } else {
        Err(Box::new(
            Difference::new("reset_pair", ours, theirs).input("kept", kept),
        ))
    }
}
