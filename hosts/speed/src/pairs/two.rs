//! What a board of two functions is before its first packet, the same for every side.

use crate::packets::{Lent, Setting};
use crate::random::Random;

/// The two functions, which have one edition, and a reply that is lent to both.
pub struct Two {
    pub primary: Setting,
    pub alternate: Setting,
    pub reply: Vec<u8>,
}

impl Two {
    /// Two functions of edition 1 that have each captured a bus and a device, with different numbers and places.
    pub fn drawn(random: &mut Random) -> Self {
        let primary = Setting::drawn(random);
        let alternate = Setting {
            function: (primary.function + 1 + random.below(7) as u8) & 7,
            a: 0x5B0,
            b: 0x1E4,
            ..Setting::drawn(random)
        };
        let reply = primary.lent.reply.clone();
        Self {
            primary,
            alternate,
            reply,
        }
    }

    pub fn set_edition(&mut self, edition: u32) {
        self.primary.edition = edition;
        self.alternate.edition = edition;
    }

    pub fn lent(&self) -> [Lent; 2] {
        [self.primary.lent.clone(), self.alternate.lent.clone()]
    }

    /// A number that neither function has.
    pub fn neither(&self, random: &mut Random) -> u8 {
        let others: Vec<u8> = (0..8)
            .filter(|&number| number != self.primary.function && number != self.alternate.function)
            .collect();
        random.pick(&others)
    }

    /// One of the two.
    pub fn either(&self, random: &mut Random) -> &Setting {
        if random.byte() & 1 == 0 {
            &self.primary
        } else {
            &self.alternate
        }
    }
}
