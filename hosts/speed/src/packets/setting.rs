//! What a board is before its first packet, the same for every side.

use crate::random::Random;
use thawribbon::EDITION_1;

/// The bytes of a space, of its rules and of its marks.
const SPACE: usize = 4096;

/// What is lent with every packet.
#[derive(Clone, PartialEq, Eq)]
pub struct Lent {
    pub ordinary: Vec<u8>,
    pub ordinary_rules: Vec<u8>,
    pub ordinary_marks: Vec<u8>,
    pub trusted: Vec<u8>,
    pub trusted_rules: Vec<u8>,
    pub trusted_marks: Vec<u8>,
    pub reply: Vec<u8>,
}

/// A board's description, its capture and what is lent.
#[derive(Clone)]
pub struct Setting {
    pub function: u8,
    pub a: u16,
    pub b: u16,
    pub edition: u32,
    pub capture: Option<(u8, u8)>,
    pub lent: Lent,
}

impl Setting {
    /// A board of edition 1 with random spaces, rules and marks that has captured a bus and a device. No bit is in rules and
    /// marks.
    pub fn drawn(random: &mut Random) -> Self {
        let ordinary_rules = random.bytes(SPACE);
        let trusted_rules = random.bytes(SPACE);
        let lent = Lent {
            ordinary: random.bytes(SPACE),
            ordinary_marks: marks_beside(&ordinary_rules, random),
            ordinary_rules,
            trusted: random.bytes(SPACE),
            trusted_marks: marks_beside(&trusted_rules, random),
            trusted_rules,
            reply: vec![0xEE; 16],
        };
        let capture = Some((random.byte(), random.byte() & 31));
        Self {
            function: random.byte() & 7,
            a: 0x7A4,
            b: 0x3C8,
            edition: EDITION_1,
            capture,
            lent,
        }
    }
}

/// Random marks, of the bits that are not in the rules.
fn marks_beside(rules: &[u8], random: &mut Random) -> Vec<u8> {
    rules.iter().map(|rule| random.byte() & !rule).collect()
}
