//! A board with a packet and a reply for it: served by the model and by the subject, and compared.

use thawribbon::raw::{Capture, Description, Served};

use super::difference::Difference;
use super::reference::{Reference, meaning};
use super::subject::{ServeCall, Subject};
use crate::classes::Boards;
use crate::generate::{Board, LONGEST_PACKET, LONGEST_REPLY, Packet, Random};
use crate::twin::Twin;

/// A board, and what is lent beside its spaces.
pub struct Bench {
    pub board: Board,
    pub packet: Twin<u8>,
    pub reply: Twin<u8>,
}

impl Bench {
    /// A bench whose board's life is over, to be renewed.
    pub fn spent() -> Self {
        Self {
            board: Board::spent(),
            packet: Twin::new(LONGEST_PACKET),
            reply: Twin::new(LONGEST_REPLY),
        }
    }

    /// Uses up a call of the board's life. With a new board the buffers get other starts, and the answer is true.
    pub fn live(&mut self, random: &mut Random) -> bool {
        let is_new = self.board.live(random);
        if is_new {
            self.shift(random);
        }
        is_new
    }

    /// Makes the board anew, and gives the buffers other starts.
    pub fn renew(&mut self, random: &mut Random) {
        self.board.renew(random);
        self.shift(random);
    }

    fn shift(&mut self, random: &mut Random) {
        self.packet.shift(random.below(8));
        self.reply.shift(random.below(8));
    }

    /// Serves a packet with a random reply of so many bytes. What is captured then, the board keeps.
    pub fn serve_packet(
        &mut self,
        packet: &Packet,
        reply_length: usize,
        kept: Capture,
        random: &mut Random,
        subject: &mut impl Subject,
    ) -> Result<Served, Box<Difference>> {
        self.load(packet, reply_length, random);
        let served = self.serve(self.board.description, kept, subject)?;
        self.keep(served);
        Ok(served)
    }

    /// Lends a packet, and a random reply of so many bytes.
    pub fn load(&mut self, packet: &Packet, reply_length: usize, random: &mut Random) {
        self.packet.set(0, &packet.bytes);
        self.packet.lend(packet.length);
        self.lend_reply(reply_length, random);
    }

    /// Keeps what is captured after a call. A refusal captures nothing.
    pub fn keep(&mut self, served: Served) {
        if served.number == 0 {
            self.board.capture = meaning(served.capture);
        }
    }

    /// Resets the board by the model and by the subject.
    pub fn reset(&mut self, random: &mut Random, subject: &mut impl Subject) -> Result<(), Box<Difference>> {
        let after = reset(self.board.kept(random), subject)?;
        self.board.capture = meaning(after);
        Ok(())
    }

    /// What the reply has of a call that wrote so many bytes.
    pub fn written(&self, served: Served) -> &[u8] {
        &self.reply.ours()[..served.length]
    }

    /// Lends a random reply of so many bytes, and remembers all that a call may write.
    pub fn lend_reply(&mut self, length: usize, random: &mut Random) {
        self.reply.refill(|bytes| random.fill(bytes));
        self.reply.lend(length);
        for written in [&mut self.board.ordinary, &mut self.board.trusted, &mut self.reply] {
            written.remember();
        }
    }

    /// Serves the packet by the model and by the subject, all as it is lent.
    pub fn serve(
        &mut self,
        description: Description,
        kept: Capture,
        subject: &mut impl Subject,
    ) -> Result<Served, Box<Difference>> {
        let ours = self.serve_ours(description, kept);
        let theirs = self.serve_theirs(description, kept, subject);
        if ours == theirs && self.agrees() {
            return Ok(ours);
        }
        Err(Box::new(self.difference(description, kept, ours, theirs)))
    }

    fn serve_ours(&mut self, description: Description, kept: Capture) -> Served {
        Reference.serve(ServeCall {
            description,
            kept,
            ordinary: self.board.ordinary.ours_mut(),
            ordinary_rules: self.board.ordinary_rules.ours(),
            ordinary_marks: self.board.ordinary_marks.ours(),
            trusted: self.board.trusted.ours_mut(),
            trusted_rules: self.board.trusted_rules.ours(),
            trusted_marks: self.board.trusted_marks.ours(),
            packet: self.packet.ours(),
            reply: self.reply.ours_mut(),
        })
    }

    fn serve_theirs(&mut self, description: Description, kept: Capture, subject: &mut impl Subject) -> Served {
        subject.serve(ServeCall {
            description,
            kept,
            ordinary: self.board.ordinary.theirs_mut(),
            ordinary_rules: self.board.ordinary_rules.theirs(),
            ordinary_marks: self.board.ordinary_marks.theirs(),
            trusted: self.board.trusted.theirs_mut(),
            trusted_rules: self.board.trusted_rules.theirs(),
            trusted_marks: self.board.trusted_marks.theirs(),
            packet: self.packet.theirs(),
            reply: self.reply.theirs_mut(),
        })
    }

    /// Whether every byte of every buffer is alike.
    fn agrees(&self) -> bool {
        let board = &self.board;
        let buffers = [
            &board.ordinary,
            &board.ordinary_rules,
            &board.ordinary_marks,
            &board.trusted,
            &board.trusted_rules,
            &board.trusted_marks,
            &self.packet,
            &self.reply,
        ];
        buffers.iter().all(|buffer| buffer.agrees())
    }

    fn difference(&self, description: Description, kept: Capture, ours: Served, theirs: Served) -> Difference {
        let board = &self.board;
        let offset = match self.packet.ours().get(10..12) {
            Some(&[high, low]) => usize::from(high & 0x0F) << 8 | usize::from(low & 0xFC),
            _ => 0,
        };
        let places = [offset, description.a as usize & !3, description.b as usize & !3];
        let difference = Difference::new("serve", ours, theirs)
            .input("description", description)
            .input("kept", kept)
            .input("the packet's offset, A and B", places)
            .bytes("packet", self.packet.ours())
            .bytes("reply as lent", self.reply.before())
            .bytes("reply of the model", self.reply.ours())
            .bytes("reply of the subject", self.reply.theirs());
        let ordinary = [&board.ordinary, &board.ordinary_rules, &board.ordinary_marks];
        let trusted = [&board.trusted, &board.trusted_rules, &board.trusted_marks];
        let difference = with_space(difference, "ordinary", ordinary, &places);
        with_space(difference, "trusted", trusted, &places)
            .look("packet", &self.packet)
            .look("reply", &self.reply)
    }
}

/// What two boards have now, by the model.
pub fn boards<'call>(first: &'call Board, second: &'call Board) -> Boards<'call> {
    Boards {
        ordinary: [first.ordinary.ours(), second.ordinary.ours()],
        trusted: [first.trusted.ours(), second.trusted.ours()],
        captures: [first.capture, second.capture],
    }
}

/// Resets a capture by the model and by the subject.
pub fn reset(kept: Capture, subject: &mut impl Subject) -> Result<Capture, Box<Difference>> {
    let (ours, theirs) = (Reference.reset(kept), subject.reset(kept));
    if ours == theirs {
        Ok(ours)
    } else {
        Err(Box::new(Difference::new("reset", ours, theirs).input("kept", kept)))
    }
}

/// Adds a space, its rules and its marks: the words at some places, the first of their words, and what differs.
pub fn with_space(difference: Difference, name: &str, buffers: [&Twin<u8>; 3], places: &[usize]) -> Difference {
    let [space, rules, marks] = buffers;
    let [rules_name, marks_name] = ["rules", "marks"].map(|part| format!("{name} {part}"));
    difference
        .words(&format!("{name} words there"), space.before(), places)
        .words(&format!("{rules_name} there"), rules.ours(), places)
        .words(&format!("{marks_name} there"), marks.ours(), places)
        .doubled(name, rules.ours(), marks.ours())
        .space(name, space.before())
        .space(&rules_name, rules.ours())
        .space(&marks_name, marks.ours())
        .look(name, space)
        .look(&rules_name, rules)
        .look(&marks_name, marks)
}
