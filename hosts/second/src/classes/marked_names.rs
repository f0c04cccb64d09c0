//! The names of the classes of request 6/13: bits that are cleared by writing 1.

/// Where the bits lie that are marked doubly, while nothing else is at fault, in the order of the names.
#[derive(Clone, Copy)]
pub enum DoubledPlace {
    AtA,
    AtB,
    AskedFor,
    Before,
    Behind,
    AskedForElsewhere,
    Elsewhere,
    SeveralInAByte,
    Many,
    Alike,
}

impl DoubledPlace {
    /// How many there are for each space.
    pub const COUNT: usize = Self::Alike as usize + 1;
}

pub const DOUBLED_PLACES: &[&str] = &[
    "ordinary, one bit, at the offset A",
    "ordinary, one bit, at the offset B",
    "ordinary, one bit, in the word asked for",
    "ordinary, one bit, before the word asked for",
    "ordinary, one bit, behind the word asked for",
    "ordinary, one bit, at the offset of a trusted request",
    "ordinary, one bit, elsewhere, with a trusted request",
    "ordinary, several bits of one byte",
    "ordinary, bits of several bytes",
    "ordinary, marks that are as the rules",
    "trusted, one bit, at the offset A",
    "trusted, one bit, at the offset B",
    "trusted, one bit, in the word asked for",
    "trusted, one bit, before the word asked for",
    "trusted, one bit, behind the word asked for",
    "trusted, one bit, at the offset of an ordinary request",
    "trusted, one bit, elsewhere, with an ordinary request",
    "trusted, several bits of one byte",
    "trusted, bits of several bytes",
    "trusted, marks that are as the rules",
];

pub const MARKS_FORMS: &[&str] = &[
    "ordinary, no bit is marked",
    "ordinary, every bit that may not be written is marked",
    "ordinary, some are",
    "trusted, no bit is marked",
    "trusted, every bit that may not be written is marked",
    "trusted, some are",
];

/// What a success met of marked bits, once for each space, in the order of the names.
#[derive(Clone, Copy)]
pub enum Met {
    ClearedBesideSet,
    ClearedBesideCleared,
    ClearedBesideKept,
    OnlyCleared,
    AllMarked,
    NothingEnabled,
    OtherSpacesMark,
    OtherSpacesMarkWritable,
    Shown,
}

impl Met {
    /// How many there are for each space.
    pub const COUNT: usize = Self::Shown as usize + 1;
}

/// What a success at A or at B met of marked bits, in the order of the names, behind those of [`Met`].
#[derive(Clone, Copy)]
pub enum MetAt {
    WriteAtAOverItsOwn,
    WriteAtAOverThoseAtB,
    ClearedAtB,
    ClearedAtBThenShown,
    ShownAtA,
}

pub const MARKED: &[&str] = &[
    "ordinary, cleared beside a writable bit that is set",
    "ordinary, cleared beside a writable bit that is cleared",
    "ordinary, cleared beside a bit of neither sort that stays 1",
    "ordinary, cleared, and no other bit of the word changes",
    "ordinary, ones to a word all of whose bits are marked",
    "ordinary, ones to marked bits with no byte enabled",
    "ordinary, one to a bit that only the other space marks",
    "ordinary, one to a writable bit that the other space marks",
    "ordinary, read of a marked bit that is 1",
    "trusted, cleared beside a writable bit that is set",
    "trusted, cleared beside a writable bit that is cleared",
    "trusted, cleared beside a bit of neither sort that stays 1",
    "trusted, cleared, and no other bit of the word changes",
    "trusted, ones to a word all of whose bits are marked",
    "trusted, ones to marked bits with no byte enabled",
    "trusted, one to a bit that only the other space marks",
    "trusted, one to a writable bit that the other space marks",
    "trusted, read of a marked bit that is 1",
    "ordinary write at A, one to a marked bit stored there",
    "ordinary write at A, one to a marked bit of the trusted word at B",
    "trusted write at B that clears a bit",
    "trusted write at B that clears a bit, then ordinary read at A",
    "ordinary read at A of a marked bit at B that is 1",
];

pub const MARKED_UNSUPPORTED: &[&str] = &[
    "Type 1",
    "other function, ordinary",
    "nothing captured",
    "other bus",
    "other device",
    "other function, trusted",
    "poisoned, ordinary",
    "poisoned, trusted",
];
