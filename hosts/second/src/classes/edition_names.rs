//! The names of the classes of request 9/13: what a packet with bit 7 set would have come to, were that ignored.

/// What a packet that edition 2 refuses for its bit 7 would have come to under edition 1, in the order of the names.
#[derive(Clone, Copy)]
pub enum Instead {
    OrdinaryRead,
    OrdinaryReadAtA,
    OrdinaryWrite,
    OrdinaryWriteAtA,
    OrdinaryClearing,
    CaptureFromNothing,
    AnotherCapture,
    TrustedRead,
    TrustedReadAtB,
    TrustedWrite,
    TrustedWriteAtB,
    TrustedClearing,
}

pub const INSTEAD: &[&str] = &[
    "ordinary read",
    "ordinary read at A",
    "ordinary write that would change a word",
    "ordinary write at A",
    "ordinary write that would clear a marked bit",
    "ordinary write that would capture where nothing is captured",
    "ordinary write that would capture another bus or device",
    "trusted read",
    "trusted read at B",
    "trusted write that would change a word",
    "trusted write that would change the word at B",
    "trusted write that would clear a marked bit",
];
