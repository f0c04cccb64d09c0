//! The names of the classes of demand 3's halves.

/// How two runs differ where both are given a packet that succeeds, once for each edition, in the order of the names.
#[derive(Clone, Copy)]
pub enum Differing {
    TrustedBytes,
    B,
    TrustedBytesNotB,
    ReadAtA,
    ReadAtAOfAnotherRegister,
    TrustedPackets,
    TrustedCodeWithBit7,
    AfterAReset,
    OrdinaryBytes,
    A,
    BInTheSecondHalf,
    Resets,
    OrdinaryPackets,
    TrustedCodeWithBit7InTheSecondHalf,
}

impl Differing {
    /// How many there are for each edition.
    pub const COUNT: usize = Self::TrustedCodeWithBit7InTheSecondHalf as usize + 1;
}

pub const DIFFERING: &[&str] = &[
    "edition 1, ordinary, trusted bytes differ",
    "edition 1, ordinary, B differs",
    "edition 1, ordinary, trusted bytes differ, B does not",
    "edition 1, ordinary, read at A, trusted bytes differ",
    "edition 1, ordinary, read at A, after both registers changed",
    "edition 1, ordinary, trusted packets of one run only before",
    "edition 1, ordinary, one run had a trusted packet with bit 7",
    "edition 1, ordinary, after a reset of both",
    "edition 1, trusted, ordinary bytes differ",
    "edition 1, trusted, A differs",
    "edition 1, trusted, B differs",
    "edition 1, trusted, resets of one run only",
    "edition 1, trusted, ordinary packets of one run only before",
    "edition 1, trusted, bit 7 set",
    "edition 2, ordinary, trusted bytes differ",
    "edition 2, ordinary, B differs",
    "edition 2, ordinary, trusted bytes differ, B does not",
    "edition 2, ordinary, read at A, trusted bytes differ",
    "edition 2, ordinary, read at A, after both registers changed",
    "edition 2, ordinary, trusted packets of one run only before",
    "edition 2, ordinary, both had a trusted code with bit 7 before",
    "edition 2, ordinary, after a reset of both",
    "edition 2, trusted, ordinary bytes differ",
    "edition 2, trusted, A differs",
    "edition 2, trusted, B differs",
    "edition 2, trusted, resets of one run only",
    "edition 2, trusted, ordinary packets of one run only before",
    "edition 2, trusted, one run had a trusted code with bit 7",
];
