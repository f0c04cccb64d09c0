//! The names of the classes of two boards side by side.

/// What both boards of a pair came to, once for each of three relations, in the order of the names.
#[derive(Clone, Copy)]
pub enum PairEvent {
    ResetForgets,
    ResetOfNothing,
    CaptureFromNothing,
    AnotherCapture,
    OrdinaryChanged,
    OrdinaryCleared,
    OrdinaryReadAtA,
    TrustedChanged,
    TrustedCleared,
    TrustedRead,
}

impl PairEvent {
    /// How many there are for each relation.
    pub const COUNT: usize = Self::TrustedRead as usize + 1;
}

pub const PAIR_EVENTS: &[&str] = &[
    "editions 1 and 2, reset that forgets",
    "editions 1 and 2, reset with nothing to forget",
    "editions 1 and 2, capture from nothing",
    "editions 1 and 2, capture of something else",
    "editions 1 and 2, ordinary word changed",
    "editions 1 and 2, ordinary marked bit cleared",
    "editions 1 and 2, ordinary read at A",
    "editions 1 and 2, trusted word changed",
    "editions 1 and 2, trusted marked bit cleared",
    "editions 1 and 2, trusted read",
    "bit 7 cleared, reset that forgets",
    "bit 7 cleared, reset with nothing to forget",
    "bit 7 cleared, capture from nothing",
    "bit 7 cleared, capture of something else",
    "bit 7 cleared, ordinary word changed",
    "bit 7 cleared, ordinary marked bit cleared",
    "bit 7 cleared, ordinary read at A",
    "bit 7 cleared, trusted word changed",
    "bit 7 cleared, trusted marked bit cleared",
    "bit 7 cleared, trusted read",
    "packets left out, reset that forgets",
    "packets left out, reset with nothing to forget",
    "packets left out, capture from nothing",
    "packets left out, capture of something else",
    "packets left out, ordinary word changed",
    "packets left out, ordinary marked bit cleared",
    "packets left out, ordinary read at A",
    "packets left out, trusted word changed",
    "packets left out, trusted marked bit cleared",
    "packets left out, trusted read",
];
