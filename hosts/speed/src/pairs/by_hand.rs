//! The same by the entry for one function, as a host could do it by hand for packets without a fault: it looks in C at the
//! rules and marks of the function that a packet is not for, and has the other serve it as a board of one.
//!
//! It does less than the library: whom a packet is for it takes from bytes 0 and 9, so that the packet is taken apart once,
//! and it tests no number of the function that it looks at, nor whether the two have different numbers.

use super::board::{Captures, Pair};
use super::two::Two;
use crate::packets::{Answer, Lent, Setting, capture_of, description_of, look};
use crate::raw;

pub struct ByHand {
    primary: One,
    alternate: One,
    reply: Vec<u8>,
}

/// A function as a board of one.
struct One {
    description: raw::Description,
    capture: raw::Capture,
    lent: Lent,
}

impl One {
    fn new(setting: &Setting) -> Self {
        Self {
            description: description_of(setting),
            capture: capture_of(setting),
            lent: setting.lent.clone(),
        }
    }

    fn captured(&self) -> Option<(u8, u8)> {
        (self.capture.captured != 0).then_some((self.capture.bus, self.capture.device))
    }
}

impl Pair for ByHand {
    const NAME: &'static str = "by hand";

    fn new(two: &Two) -> Self {
        Self {
            primary: One::new(&two.primary),
            alternate: One::new(&two.alternate),
            reply: two.reply.clone(),
        }
    }

    #[inline(never)]
    fn serve(&mut self, packet: &[u8]) -> Answer {
        let Self {
            primary,
            alternate,
            reply,
        } = self;
        let is_for_alternate = packet[9] & 7 == alternate.description.function && packet[0] & 0x1F != 0x05;
        let (one, other) = if is_for_alternate {
            (alternate, primary)
        } else {
            (primary, alternate)
        };
        if look::overlaps(&other.lent) {
            return Answer { number: 1, length: 0 };
        }
        let served = raw::serve(
            one.description,
            one.capture,
            &mut one.lent.ordinary,
            &one.lent.ordinary_rules,
            &one.lent.ordinary_marks,
            &mut one.lent.trusted,
            &one.lent.trusted_rules,
            &one.lent.trusted_marks,
            packet,
            reply,
        );
        one.capture = served.capture;
        Answer {
            number: served.number,
            length: served.length,
        }
    }

    fn captures(&self) -> Captures {
        [self.primary.captured(), self.alternate.captured()]
    }

    fn lent(&self) -> [&Lent; 2] {
        [&self.primary.lent, &self.alternate.lent]
    }

    fn reply(&self) -> &[u8] {
        &self.reply
    }
}
