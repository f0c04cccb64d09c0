//! The kinds of packets that are timed, one for each row.

use super::board::Answer;
use super::draft::Draft;
use super::setting::Setting;
use super::{CALLS, SERVED_CALLS};
use crate::random::Random;
use thawribbon::EDITION_2;

/// A kind of packet with the board it is sent to, and what every packet of it must be answered.
pub struct Kind {
    pub what: &'static str,
    pub answer: Answer,
    /// The completion's status byte, if there is a completion.
    pub status: Option<u8>,
    /// How many packets are sent in a pass.
    pub calls: usize,
    /// What is different in the board.
    pub setting: fn(&mut Setting),
    pub draw: Draw,
}

/// Draws a packet for a board.
type Draw = fn(&mut Random, &Setting) -> Draft;

pub const SERVED: Option<u8> = Some(0x00);
pub const UNSUPPORTED: Option<u8> = Some(0x20);

pub const KINDS: [Kind; 24] = [
    read("read, ordinary", |random, setting| {
        Draft::ordinary(0x04, random, setting)
    }),
    read("read, ordinary, all bytes enabled", |random, setting| {
        Draft::ordinary(0x04, random, setting).with_enables(0x0F)
    }),
    read("read, ordinary, at A", |random, setting| {
        Draft::ordinary(0x04, random, setting).at(setting.a)
    }),
    read("read, trusted", |random, setting| Draft::trusted(0x1B, random, setting)),
    write("write, ordinary", |random, setting| {
        Draft::ordinary(0x44, random, setting)
    }),
    write("write, ordinary, all bytes enabled", |random, setting| {
        Draft::ordinary(0x44, random, setting).with_enables(0x0F)
    }),
    write("write, ordinary, at A", |random, setting| {
        Draft::ordinary(0x44, random, setting).at(setting.a)
    }),
    write("write, trusted", |random, setting| {
        Draft::trusted(0x5B, random, setting)
    }),
    unsupported("UR, type 1 read", |random, setting| {
        Draft::ordinary(0x05, random, setting)
    }),
    unsupported("UR, read of another function", |random, setting| {
        Draft::ordinary(0x04, random, setting).for_another_function(random)
    }),
    Kind {
        setting: |setting| setting.capture = None,
        ..unsupported("UR, trusted read, nothing captured", |random, setting| {
            Draft::trusted(0x1B, random, setting)
        })
    },
    unsupported("UR, poisoned write", |random, setting| {
        Draft::ordinary(0x44, random, setting).poisoned()
    }),
    Kind {
        calls: CALLS,
        setting: |setting| setting.lent.trusted_rules.truncate(4095),
        ..refused("refused 1, a rule space of 4,095 bytes", 1, |random, setting| {
            Draft::ordinary(0x04, random, setting)
        })
    },
    Kind {
        calls: CALLS,
        setting: |setting| setting.lent.trusted_marks.truncate(4095),
        ..refused("refused 1, marks of 4,095 bytes", 1, |random, setting| {
            Draft::ordinary(0x04, random, setting)
        })
    },
    Kind {
        setting: |setting| (setting.lent.ordinary_rules[0], setting.lent.ordinary_marks[0]) = (0x01, 0x01),
        ..refused("refused 1, the first bit in rules and marks", 1, |random, setting| {
            Draft::ordinary(0x04, random, setting)
        })
    },
    Kind {
        setting: |setting| (setting.lent.trusted_rules[4095], setting.lent.trusted_marks[4095]) = (0x80, 0x80),
        ..refused("refused 1, the last bit in rules and marks", 1, |random, setting| {
            Draft::ordinary(0x04, random, setting)
        })
    },
    Kind {
        setting: |setting| setting.lent.reply.truncate(15),
        ..refused("refused 2, a reply of 15 bytes", 2, |random, setting| {
            Draft::ordinary(0x04, random, setting)
        })
    },
    refused("refused 3, a packet under 12 bytes", 3, |random, setting| {
        Draft::ordinary(0x04, random, setting).cut_below_12(random)
    }),
    refused("refused 4, another type code", 4, |random, setting| {
        Draft::ordinary(0x04, random, setting).with_another_type_code(random)
    }),
    refused("refused 5, another length", 5, |random, setting| {
        Draft::ordinary(0x04, random, setting).with_another_length(random)
    }),
    refused("refused 6, another fixed field", 6, |random, setting| {
        Draft::ordinary(0x04, random, setting).with_another_field(random)
    }),
    Kind {
        setting: |setting| setting.edition = EDITION_2,
        ..read("read, ordinary, edition 2", |random, setting| {
            Draft::ordinary(0x04, random, setting).with_bit_7(false)
        })
    },
    Kind {
        setting: |setting| setting.edition = EDITION_2,
        ..write("write, trusted, edition 2", |random, setting| {
            Draft::trusted(0x5B, random, setting).with_bit_7(false)
        })
    },
    Kind {
        setting: |setting| setting.edition = EDITION_2,
        ..refused("refused 4, bit 7, edition 2", 4, |random, setting| {
            Draft::ordinary(0x04, random, setting).with_bit_7(true)
        })
    },
];

const fn read(what: &'static str, draw: Draw) -> Kind {
    kind(what, Answer { number: 0, length: 16 }, SERVED, draw)
}

const fn write(what: &'static str, draw: Draw) -> Kind {
    kind(what, Answer { number: 0, length: 12 }, SERVED, draw)
}

const fn unsupported(what: &'static str, draw: Draw) -> Kind {
    kind(what, Answer { number: 0, length: 12 }, UNSUPPORTED, draw)
}

const fn refused(what: &'static str, number: u8, draw: Draw) -> Kind {
    kind(what, Answer { number, length: 0 }, None, draw)
}

const fn kind(what: &'static str, answer: Answer, status: Option<u8>, draw: Draw) -> Kind {
    let setting = |_: &mut Setting| ();
    Kind {
        what,
        answer,
        status,
        calls: SERVED_CALLS,
        setting,
        draw,
    }
}
