//! Request 11/13: "a board of two functions with different numbers, each with its own spaces, rules, offsets and capture,
//! and one edition." Each of the two is a board of document 01, and serves as one.

use super::completion::LONGEST_COMPLETION;
use super::description::Description;
use super::edition::Bit7;
use super::refusal::Refusal;
use super::request::{Request, Route};
use super::ruled::RuledSpace;
use super::serve::Board;

/// What one of the two functions has by itself.
pub struct Function<'lent> {
    /// The function number, 0 to 7.
    pub number: u8,
    pub a: u32,
    pub b: u32,
    /// Its own captured bus and device, or nothing.
    pub kept: Option<(u8, u8)>,
    pub ordinary: &'lent mut [u8],
    pub ordinary_rules: &'lent [u8],
    pub ordinary_marks: &'lent [u8],
    pub trusted: &'lent mut [u8],
    pub trusted_rules: &'lent [u8],
    pub trusted_marks: &'lent [u8],
}

impl<'lent> Function<'lent> {
    /// The function as a board of the edition that both have. Refused with 1 where it is badly described.
    fn board(self, edition: u32) -> Result<Board<'lent>, Refusal> {
        let description = Description {
            function: self.number,
            a: self.a,
            b: self.b,
            edition,
        };
        let ordinary = RuledSpace::new(self.ordinary, self.ordinary_rules, self.ordinary_marks);
        let trusted = RuledSpace::new(self.trusted, self.trusted_rules, self.trusted_marks);
        Board::new(description, self.kept, ordinary, trusted)
    }
}

/// The answer to a packet: its number, how many bytes of the reply are written, and what the primary and the alternate
/// have captured then.
#[derive(Clone, Copy, Debug, PartialEq, Eq)]
pub struct ServedByTwo {
    pub number: u8,
    pub length: usize,
    pub captures: [Option<(u8, u8)>; 2],
}

/// Answers one packet. The first of the two functions is the primary, the second the alternate.
pub fn serve_pair(edition: u32, functions: [Function<'_>; 2], packet: &[u8], reply: &mut [u8]) -> ServedByTwo {
    let kept = functions.each_ref().map(|function| function.kept);
    TwoFunctions::new(edition, functions)
        .and_then(|board| board.serve(packet, reply))
        .unwrap_or_else(|refusal| ServedByTwo {
            number: refusal.number(),
            length: 0,
            captures: kept,
        })
}

/// Which of two functions a packet is for, by their numbers: 0 the first, 1 the second. "One with a fault of 3 to 6 gets
/// that number. Below, that one and every Type 1 request count as for neither, whatever byte 9 names."
pub fn is_for(packet: &[u8], edition: u32, numbers: [u8; 2]) -> Option<usize> {
    let request = Bit7::of(edition).and_then(|bit_7| Request::read(packet, bit_7)).ok()?;
    numbers.iter().position(|&number| goes_to(&request, number))
}

/// "A packet goes to the function it names in byte 9; a Type 1 request, or one for neither," goes to none.
fn goes_to(request: &Request, number: u8) -> bool {
    request.route != Route::Type1 && request.function == number
}

/// A board of two functions, both well described.
struct TwoFunctions<'lent> {
    primary: Board<'lent>,
    alternate: Board<'lent>,
}

impl<'lent> TwoFunctions<'lent> {
    /// Refused with 1 where either is badly described, and for "Equal numbers".
    fn new(edition: u32, functions: [Function<'lent>; 2]) -> Result<Self, Refusal> {
        let [primary, alternate] = functions.map(|function| function.board(edition));
        let (primary, alternate) = (primary?, alternate?);
        if primary.function == alternate.function {
            return Err(Refusal::Outside);
        }
        debug_assert_eq!(primary.bit_7, alternate.bit_7, "there is one edition");
        Ok(Self { primary, alternate })
    }

    /// Refused with 2 to 6 before anything is changed; otherwise the function that the request goes to answers it. "A
    /// Type 1 request, or one for neither, gets UR with the primary's completer ID."
    fn serve(mut self, packet: &[u8], reply: &mut [u8]) -> Result<ServedByTwo, Refusal> {
        let reply = reply.first_chunk_mut::<LONGEST_COMPLETION>().ok_or(Refusal::Room)?;
        let request = Request::read(packet, self.primary.bit_7)?;
        let length = match self.addressed(&request) {
            Some(function) => function.answer(&request, reply),
            None => self.primary.decline(&request, reply),
        };
        Ok(ServedByTwo {
            number: 0,
            length,
            captures: [self.primary.capture, self.alternate.capture],
        })
    }

    /// Each function says by itself whether a request goes to it. As their numbers differ, at most one does.
    fn addressed(&mut self, request: &Request) -> Option<&mut Board<'lent>> {
        let [primary, alternate] = [&self.primary, &self.alternate].map(|board| goes_to(request, board.function));
        debug_assert!(!(primary && alternate));
        match (primary, alternate) {
            (true, _) => Some(&mut self.primary),
            (_, true) => Some(&mut self.alternate),
            _ => None,
        }
    }
}
