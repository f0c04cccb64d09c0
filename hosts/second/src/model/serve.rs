//! One packet served: tested, done to the spaces, and answered by a completion.

use super::completion::{self, LONGEST_COMPLETION, Outcome, SHORT_COMPLETION};
use super::description::Description;
use super::edition::Bit7;
use super::refusal::Refusal;
use super::request::{Access, Request, Route};
use super::ruled::RuledSpace;

/// The answer to a packet: its number, how many bytes of the reply are written, and the capture to keep.
#[derive(Clone, Copy, Debug, PartialEq, Eq)]
pub struct Served {
    pub number: u8,
    pub length: usize,
    /// The captured bus and device, or nothing.
    pub capture: Option<(u8, u8)>,
}

/// Answers one packet. "Every number but 0 leaves spaces, capture, reply and list room unchanged, and reports length
/// or count 0".
#[allow(clippy::too_many_arguments)]
pub fn serve(
    description: Description,
    kept: Option<(u8, u8)>,
    ordinary: &mut [u8],
    ordinary_rules: &[u8],
    ordinary_marks: &[u8],
    trusted: &mut [u8],
    trusted_rules: &[u8],
    trusted_marks: &[u8],
    packet: &[u8],
    reply: &mut [u8],
) -> Served {
    let ordinary = RuledSpace::new(ordinary, ordinary_rules, ordinary_marks);
    let trusted = RuledSpace::new(trusted, trusted_rules, trusted_marks);
    Board::new(description, kept, ordinary, trusted)
        .and_then(|board| board.serve(packet, reply))
        .unwrap_or_else(|refusal| Served {
            number: refusal.number(),
            length: 0,
            capture: kept,
        })
}

/// A board whose description, capture and spaces are all within their bounds.
pub(super) struct Board<'lent> {
    pub function: u8,
    a: usize,
    b: usize,
    pub bit_7: Bit7,
    pub capture: Option<(u8, u8)>,
    ordinary: RuledSpace<'lent>,
    trusted: RuledSpace<'lent>,
}

impl<'lent> Board<'lent> {
    /// Refused with 1 where a part is outside its bounds.
    pub(super) fn new(
        description: Description,
        kept: Option<(u8, u8)>,
        ordinary: Result<RuledSpace<'lent>, Refusal>,
        trusted: Result<RuledSpace<'lent>, Refusal>,
    ) -> Result<Self, Refusal> {
        let bit_7 = description.check(kept)?;
        Ok(Self {
            function: description.function,
            a: description.a as usize,
            b: description.b as usize,
            bit_7,
            capture: kept,
            ordinary: ordinary?,
            trusted: trusted?,
        })
    }

    /// Refused with 2 to 6 before anything is changed; otherwise the access is done and the reply is written.
    fn serve(mut self, packet: &[u8], reply: &mut [u8]) -> Result<Served, Refusal> {
        let reply = reply.first_chunk_mut::<LONGEST_COMPLETION>().ok_or(Refusal::Room)?;
        let request = Request::read(packet, self.bit_7)?;
        let length = self.answer(&request, reply);
        Ok(Served {
            number: 0,
            length,
            capture: self.capture,
        })
    }

    /// Does the access that a request asks for, and writes the completion. Answers its length.
    pub(super) fn answer(&mut self, request: &Request, reply: &mut [u8; LONGEST_COMPLETION]) -> usize {
        let kept = self.capture;
        let outcome = self.access(request);
        debug_assert_eq!(self.capture, captured(request, outcome).or(kept));
        let length = completion::write(reply, request, self.capture, self.function, outcome);
        debug_assert!(length == SHORT_COMPLETION || self.has_each_byte(request, &reply[SHORT_COMPLETION..]));
        length
    }

    /// Does nothing, and writes the completion of Unsupported Request with the board's own ID. Answers its length.
    pub(super) fn decline(&self, request: &Request, reply: &mut [u8; LONGEST_COMPLETION]) -> usize {
        completion::write(reply, request, self.capture, self.function, Outcome::Unsupported)
    }

    /// Does what the request asks, or nothing where Unsupported Request is given.
    fn access(&mut self, request: &Request) -> Outcome {
        let poisoned_write = request.poisoned && request.access != Access::Read;
        if poisoned_write || !self.is_for_this_board(request) {
            return Outcome::Unsupported;
        }
        match request.route {
            Route::Trusted => self.trusted_access(request),
            _ => self.ordinary_access(request),
        }
    }

    /// UR is given for "a Type 1 request; a Type 0 request for another function; a trusted request while nothing is
    /// captured (004, 2.2.9); a trusted request whose bus, device and function aren't the captured two and the board's
    /// own".
    fn is_for_this_board(&self, request: &Request) -> bool {
        let own_function = request.function == self.function;
        match request.route {
            Route::Type0 => own_function,
            Route::Type1 => false,
            Route::Trusted => own_function && self.capture == Some((request.bus, request.device)),
        }
    }

    /// "An ordinary write there", at A, "succeeds, captures, and changes no byte." "A successful Type 0 write captures
    /// its bus and device number before the reply is written, also with no byte enabled." And request 6/13: "An ordinary
    /// write at A still changes nothing."
    fn ordinary_access(&mut self, request: &Request) -> Outcome {
        let at_correlation = request.offset == self.a;
        match request.access {
            Access::Read if at_correlation => Outcome::Read(self.correlation()),
            Access::Read => Outcome::Read(self.ordinary.read(request.offset)),
            Access::Write(data) => {
                self.capture = Some((request.bus, request.device));
                if !at_correlation {
                    self.ordinary.write(request.offset, data, request.first_enables);
                }
                Outcome::Written
            }
        }
    }

    /// "No trusted request captures."
    fn trusted_access(&mut self, request: &Request) -> Outcome {
        match request.access {
            Access::Read => Outcome::Read(self.trusted.read(request.offset)),
            Access::Write(data) => {
                self.trusted.write(request.offset, data, request.first_enables);
                Outcome::Written
            }
        }
    }

    /// Document 01: "The ordinary word at A reads as the four trusted bytes at B, under the same enables." Request 7/13
    /// takes the enables away: "every successful read returns all four bytes whatever the enables, also at A."
    fn correlation(&self) -> u32 {
        self.trusted.read(self.b)
    }

    /// Whether the data of a reply are the bytes at the word's four addresses, each as it is and at its own place: at A
    /// those of B, of a trusted request those of the trusted space, else those of the ordinary one. Only stated: no
    /// answer rests on it.
    fn has_each_byte(&self, request: &Request, data: &[u8]) -> bool {
        let (space, first) = match request.route {
            Route::Type0 if request.offset == self.a => (&self.trusted, self.b),
            Route::Trusted => (&self.trusted, request.offset),
            _ => (&self.ordinary, request.offset),
        };
        let due = [0, 1, 2, 3].map(|place| space.byte(first + place));
        data == due
    }
}

/// What a request captures: "A successful Type 0 write captures its bus and device number", and nothing else does. Only
/// stated: no answer rests on it.
fn captured(request: &Request, outcome: Outcome) -> Option<(u8, u8)> {
    let captures = request.route == Route::Type0 && outcome == Outcome::Written;
    captures.then_some((request.bus, request.device))
}
