//! The names of the classes of packets that are served twice or more.

/// What a packet came to when it was served first, in the order of the names. Each is there once for each edition.
#[derive(Clone, Copy)]
pub enum AgainEvent {
    OrdinaryRead,
    OrdinaryReadAtA,
    OrdinaryChanged,
    OrdinaryCleared,
    OrdinaryKept,
    OrdinaryWriteAtA,
    CaptureFromNothing,
    AnotherCapture,
    SameCapture,
    TrustedRead,
    TrustedReadOfMarkedBits,
    TrustedChanged,
    TrustedCleared,
    TrustedKept,
    TrustedChangedAtB,
    NothingEnabled,
}

pub const AGAIN_EVENTS: &[&str] = &[
    "edition 1, ordinary read",
    "edition 1, ordinary read at A",
    "edition 1, ordinary word changed",
    "edition 1, ordinary marked bit cleared",
    "edition 1, ordinary write that changes nothing",
    "edition 1, ordinary write at A",
    "edition 1, capture from nothing",
    "edition 1, capture of something else",
    "edition 1, capture of the same",
    "edition 1, trusted read",
    "edition 1, trusted read of marked bits that are 1",
    "edition 1, trusted word changed",
    "edition 1, trusted marked bit cleared",
    "edition 1, trusted write that changes nothing",
    "edition 1, trusted word at B changed",
    "edition 1, write with no byte enabled",
    "edition 2, ordinary read",
    "edition 2, ordinary read at A",
    "edition 2, ordinary word changed",
    "edition 2, ordinary marked bit cleared",
    "edition 2, ordinary write that changes nothing",
    "edition 2, ordinary write at A",
    "edition 2, capture from nothing",
    "edition 2, capture of something else",
    "edition 2, capture of the same",
    "edition 2, trusted read",
    "edition 2, trusted read of marked bits that are 1",
    "edition 2, trusted word changed",
    "edition 2, trusted marked bit cleared",
    "edition 2, trusted write that changes nothing",
    "edition 2, trusted word at B changed",
    "edition 2, write with no byte enabled",
];

/// What becomes of a packet at the router that does not come to the board.
pub const AGAIN_ROUTED: &[&str] = &[
    "UR",
    "1",
    "2",
    "3",
    "4",
    "5",
    "6",
    "leaves by another port as Type 0",
    "leaves by another port as Type 1",
    "leaves by another port, trusted",
];

/// What another list of ports between makes of a packet's repeat.
pub const AGAIN_LISTS: &[&str] = &["leaves by another port", "leaves no more", "leaves then"];

/// How often a packet was served in a row, by what it was given.
pub const AGAIN_TIMES: &[&str] = &[
    "twice, success with data",
    "twice, success without data",
    "twice, UR",
    "twice, refused",
    "three times, success with data",
    "three times, success without data",
    "three times, UR",
    "three times, refused",
    "four times, success with data",
    "four times, success without data",
    "four times, UR",
    "four times, refused",
    "more often, success with data",
    "more often, success without data",
    "more often, UR",
    "more often, refused",
];
