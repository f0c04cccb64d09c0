//! A board of two functions on each side: one function of the same shape for each, which is not inlined and makes one call
//! to the side.

use super::safe_rust::{self, Function, Space, Spaces};
use super::two::Two;
use crate::packets::{Answer, Lent, Setting, capture_of};
use crate::raw;

/// What the primary has captured, and what the alternate.
pub type Captures = [Option<(u8, u8)>; 2];

/// A board of two functions that a side keeps between packets.
pub trait Pair {
    const NAME: &'static str;
    fn new(two: &Two) -> Self;
    /// Serves one packet, and keeps the captures. Never inlined.
    fn serve(&mut self, packet: &[u8]) -> Answer;
    fn captures(&self) -> Captures;
    /// What is lent of the primary, and of the alternate; the reply is neither's.
    fn lent(&self) -> [&Lent; 2];
    fn reply(&self) -> &[u8];
}

/// The library's board.
pub struct Library {
    edition: u32,
    primary: raw::Function,
    alternate: raw::Function,
    kept: raw::Captures,
    lent: [Lent; 2],
    reply: Vec<u8>,
}

fn function_of(setting: &Setting) -> raw::Function {
    raw::Function {
        function: setting.function,
        a: setting.a.into(),
        b: setting.b.into(),
    }
}

impl Pair for Library {
    const NAME: &'static str = "library";

    fn new(two: &Two) -> Self {
        Self {
            edition: two.primary.edition,
            primary: function_of(&two.primary),
            alternate: function_of(&two.alternate),
            kept: raw::Captures {
                primary: capture_of(&two.primary),
                alternate: capture_of(&two.alternate),
            },
            lent: two.lent(),
            reply: two.reply.clone(),
        }
    }

    #[inline(never)]
    fn serve(&mut self, packet: &[u8]) -> Answer {
        let Self {
            edition,
            primary,
            alternate,
            kept,
            lent: [one, other],
            reply,
        } = self;
        let served = raw::serve_pair(
            *edition,
            *primary,
            *alternate,
            *kept,
            &mut one.ordinary,
            &one.ordinary_rules,
            &one.ordinary_marks,
            &mut one.trusted,
            &one.trusted_rules,
            &one.trusted_marks,
            &mut other.ordinary,
            &other.ordinary_rules,
            &other.ordinary_marks,
            &mut other.trusted,
            &other.trusted_rules,
            &other.trusted_marks,
            packet,
            reply,
        );
        *kept = served.kept;
        Answer {
            number: served.number,
            length: served.length,
        }
    }

    fn captures(&self) -> Captures {
        [self.kept.primary, self.kept.alternate]
            .map(|capture| (capture.captured != 0).then_some((capture.bus, capture.device)))
    }

    fn lent(&self) -> [&Lent; 2] {
        self.lent.each_ref()
    }

    fn reply(&self) -> &[u8] {
        &self.reply
    }
}

/// The board in safe Rust.
pub struct SafeRust {
    edition: u32,
    functions: [Function; 2],
    captures: Captures,
    lent: [Lent; 2],
    reply: Vec<u8>,
}

fn function_for_safe_rust(setting: &Setting) -> Function {
    Function {
        number: setting.function,
        a: setting.a.into(),
        b: setting.b.into(),
    }
}

impl Pair for SafeRust {
    const NAME: &'static str = "safe Rust";

    fn new(two: &Two) -> Self {
        let both = [&two.primary, &two.alternate];
        Self {
            edition: two.primary.edition,
            functions: both.map(function_for_safe_rust),
            captures: both.map(|setting| setting.capture),
            lent: two.lent(),
            reply: two.reply.clone(),
        }
    }

    #[inline(never)]
    fn serve(&mut self, packet: &[u8]) -> Answer {
        let Self {
            edition,
            functions,
            captures,
            lent: [one, other],
            reply,
        } = self;
        let primary = Spaces {
            ordinary: Space {
                bytes: &mut one.ordinary,
                rules: &one.ordinary_rules,
                marks: &one.ordinary_marks,
            },
            trusted: Space {
                bytes: &mut one.trusted,
                rules: &one.trusted_rules,
                marks: &one.trusted_marks,
            },
        };
        let alternate = Spaces {
            ordinary: Space {
                bytes: &mut other.ordinary,
                rules: &other.ordinary_rules,
                marks: &other.ordinary_marks,
            },
            trusted: Space {
                bytes: &mut other.trusted,
                rules: &other.trusted_rules,
                marks: &other.trusted_marks,
            },
        };
        let served = safe_rust::serve(*edition, *functions, captures, [primary, alternate], packet, reply);
        match served {
            Ok(length) => Answer { number: 0, length },
            Err(number) => Answer { number, length: 0 },
        }
    }

    fn captures(&self) -> Captures {
        self.captures
    }

    fn lent(&self) -> [&Lent; 2] {
        self.lent.each_ref()
    }

    fn reply(&self) -> &[u8] {
        &self.reply
    }
}
