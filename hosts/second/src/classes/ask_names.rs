//! The names of the asking side's classes, by group.

pub const WRITE_ANSWERS: &[&str] = &["0", "1", "2"];

/// The causes of 1 and then that of 2, in the order in which they are looked for.
pub const WRITE_CAUSES: &[&str] = &[
    "one of the six kinds with bit 7",
    "any other kind outside the six",
    "device over 31",
    "function over 7",
    "offset over FFCh",
    "offset not a multiple of 4",
    "enables over 15",
    "buffer too short",
];

/// What a completion comes to, in the order of the names.
#[derive(Clone, Copy)]
pub enum Hearing {
    WithData,
    WithoutData,
    Unsupported,
    Short,
    FirstByte,
    Length,
    FixedByte,
}

pub const HEAR_ANSWERS: &[&str] = &["success with data", "success without data", "UR", "3", "4", "5", "6"];

/// The causes of 3 to 6: the places behind the first two names are those of the fixed bytes in their order.
pub const HEAR_CAUSES: &[&str] = &[
    "under 12 bytes",
    "first byte",
    "0Ah, length",
    "0Ah, byte 1",
    "0Ah, byte 2",
    "0Ah, byte 3",
    "0Ah, status",
    "0Ah, byte 7",
    "0Ah, byte 11",
    "4Ah, length",
    "4Ah, byte 1",
    "4Ah, byte 2",
    "4Ah, byte 3",
    "4Ah, status",
    "4Ah, byte 7",
    "4Ah, byte 11",
];

pub const HEAR_TOGETHER: &[&str] = &["3 and 4", "3 and 6", "4 and 6", "5 and 6", "two bytes of 6"];

/// The six kinds by what became of them; Type 1 is never done.
pub const CIRCLES: &[&str] = &[
    "04h, success with data",
    "44h, success without data",
    "1Bh, success with data",
    "5Bh, success without data",
    "04h, UR",
    "44h, UR",
    "05h, UR",
    "45h, UR",
    "1Bh, UR",
    "5Bh, UR",
];

pub const CIRCLE_UNSUPPORTED: &[&str] = &[
    "Type 1 read",
    "Type 1 write",
    "other function, ordinary read",
    "other function, ordinary write",
    "nothing captured, read",
    "nothing captured, write",
    "other bus, read",
    "other bus, write",
    "other device, read",
    "other device, write",
    "other function, trusted read",
    "other function, trusted write",
];

/// What a success of a circle came to on the board, in the order of the names.
#[derive(Clone, Copy)]
pub enum Effect {
    OrdinaryShown,
    OrdinaryShownAtA,
    TrustedShown,
    TrustedShownAtB,
    OrdinaryChanged,
    OrdinaryKept,
    OrdinaryBitsKept,
    OrdinaryWriteAtA,
    TrustedChanged,
    TrustedKept,
    TrustedBitsKept,
    TrustedChangedAtB,
    NothingEnabledRead,
    NothingEnabledWritten,
    Captured,
    OrdinaryCleared,
    OrdinaryMarksKept,
    OrdinaryWriteAtAOverMarks,
    TrustedCleared,
    TrustedMarksKept,
    TrustedClearedAtB,
}

pub const EFFECTS: &[&str] = &[
    "ordinary read that shows something",
    "ordinary read at A that shows something",
    "trusted read that shows something",
    "trusted read at B that shows something",
    "ordinary write that changes the word",
    "ordinary write that leaves the word",
    "ordinary write that changes some bits and not others",
    "ordinary write at A of something else",
    "trusted write that changes the word",
    "trusted write that leaves the word",
    "trusted write that changes some bits and not others",
    "trusted write at B that changes the word",
    "read with no byte enabled that shows something",
    "write with no byte enabled",
    "write that captures something else",
    "ordinary write that clears a marked bit",
    "ordinary write that leaves a marked bit at 1",
    "ordinary write at A of a one to a marked bit at A or B",
    "trusted write that clears a marked bit",
    "trusted write that leaves a marked bit at 1",
    "trusted write at B that clears a marked bit",
];
