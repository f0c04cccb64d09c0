//! The kinds of packets that are timed on a board of two functions, one for each row.

use super::two::Two;
use crate::packets::{Answer, CALLS, Draft, SERVED, SERVED_CALLS, Setting, UNSUPPORTED};
use crate::random::Random;
use thawribbon::EDITION_2;

/// A kind of packet with the board it is sent to, and what every packet of it must be answered.
pub struct Kind {
    pub what: &'static str,
    pub answer: Answer,
    /// The completion's status byte, if there is a completion.
    pub status: Option<u8>,
    /// How many packets are sent in a pass.
    pub calls: usize,
    /// What is different in the board.
    pub setting: fn(&mut Two),
    pub draw: Draw,
    by: By,
}

/// Which function serves the packets of a kind.
#[derive(Clone, Copy)]
enum By {
    Primary,
    Alternate,
    /// Now one, now the other; or the packets are refused.
    Either,
}

/// Draws a packet for a board.
type Draw = fn(&mut Random, &Two) -> Draft;

pub const KINDS: [Kind; 21] = [
    read("pair, read, ordinary, for the primary", By::Primary, |random, two| {
        Draft::ordinary(0x04, random, &two.primary)
    }),
    read(
        "pair, read, ordinary, for the alternate",
        By::Alternate,
        |random, two| Draft::ordinary(0x04, random, &two.alternate),
    ),
    read("pair, read, ordinary, for either", By::Either, |random, two| {
        let setting = two.either(random);
        Draft::ordinary(0x04, random, setting)
    }),
    read("pair, read, trusted, for the primary", By::Primary, |random, two| {
        Draft::trusted(0x1B, random, &two.primary)
    }),
    read(
        "pair, read, trusted, for the alternate",
        By::Alternate,
        |random, two| Draft::trusted(0x1B, random, &two.alternate),
    ),
    write("pair, write, ordinary, for the primary", By::Primary, |random, two| {
        Draft::ordinary(0x44, random, &two.primary)
    }),
    write(
        "pair, write, ordinary, for the alternate",
        By::Alternate,
        |random, two| Draft::ordinary(0x44, random, &two.alternate),
    ),
    write("pair, write, ordinary, for either", By::Either, |random, two| {
        let setting = two.either(random);
        Draft::ordinary(0x44, random, setting)
    }),
    write("pair, write, trusted, for the primary", By::Primary, |random, two| {
        Draft::trusted(0x5B, random, &two.primary)
    }),
    write(
        "pair, write, trusted, for the alternate",
        By::Alternate,
        |random, two| Draft::trusted(0x5B, random, &two.alternate),
    ),
    Kind {
        setting: |two| two.set_edition(EDITION_2),
        ..write(
            "pair, write, trusted, for the alternate, edition 2",
            By::Alternate,
            |random, two| Draft::trusted(0x5B, random, &two.alternate).with_bit_7(false),
        )
    },
    unsupported("pair, UR, read for neither", By::Primary, |random, two| {
        Draft::ordinary(0x04, random, &two.primary).for_function(two.neither(random))
    }),
    unsupported(
        "pair, UR, type 1 read that names the alternate",
        By::Primary,
        |random, two| Draft::ordinary(0x05, random, &two.alternate),
    ),
    unsupported(
        "pair, UR, poisoned write for the alternate",
        By::Alternate,
        |random, two| Draft::ordinary(0x44, random, &two.alternate).poisoned(),
    ),
    Kind {
        calls: CALLS,
        setting: |two| two.alternate.function = two.primary.function,
        ..refused("pair, refused 1, equal numbers", 1)
    },
    Kind {
        calls: CALLS,
        setting: |two| two.alternate.lent.trusted_rules.truncate(4095),
        ..refused("pair, refused 1, a rule space of 4,095 bytes", 1)
    },
    Kind {
        setting: |two| {
            let lent = &mut two.primary.lent;
            (lent.trusted_rules[4095], lent.trusted_marks[4095]) = (0x80, 0x80);
        },
        ..refused("pair, refused 1, the primary's last bit in rules and marks", 1)
    },
    Kind {
        setting: |two| {
            let lent = &mut two.alternate.lent;
            (lent.trusted_rules[4095], lent.trusted_marks[4095]) = (0x80, 0x80);
        },
        ..refused("pair, refused 1, the alternate's last bit in rules and marks", 1)
    },
    Kind {
        setting: |two| two.reply.truncate(15),
        ..refused("pair, refused 2, a reply of 15 bytes", 2)
    },
    Kind {
        draw: |random, two| Draft::ordinary(0x04, random, &two.primary).cut_below_12(random),
        ..refused("pair, refused 3, a packet under 12 bytes", 3)
    },
    Kind {
        draw: |random, two| Draft::ordinary(0x04, random, &two.alternate).with_another_field(random),
        ..refused("pair, refused 6, another fixed field", 6)
    },
];

const fn read(what: &'static str, by: By, draw: Draw) -> Kind {
    kind(what, Answer { number: 0, length: 16 }, SERVED, by, draw)
}

const fn write(what: &'static str, by: By, draw: Draw) -> Kind {
    kind(what, Answer { number: 0, length: 12 }, SERVED, by, draw)
}

const fn unsupported(what: &'static str, by: By, draw: Draw) -> Kind {
    kind(what, Answer { number: 0, length: 12 }, UNSUPPORTED, by, draw)
}

/// Reads for the primary that are refused.
const fn refused(what: &'static str, number: u8) -> Kind {
    kind(what, Answer { number, length: 0 }, None, By::Either, |random, two| {
        Draft::ordinary(0x04, random, &two.primary)
    })
}

const fn kind(what: &'static str, answer: Answer, status: Option<u8>, by: By, draw: Draw) -> Kind {
    let setting = |_: &mut Two| ();
    Kind {
        what,
        answer,
        status,
        calls: SERVED_CALLS,
        setting,
        draw,
        by,
    }
}

impl Kind {
    pub const fn is_served(&self) -> bool {
        self.status.is_some()
    }

    /// The function that serves all packets, which does the same as a board of one.
    pub const fn alone<'two>(&self, two: &'two Two) -> Option<&'two Setting> {
        match self.by {
            By::Primary => Some(&two.primary),
            By::Alternate => Some(&two.alternate),
            By::Either => None,
        }
    }
}
