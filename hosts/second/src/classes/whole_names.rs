//! The names of the classes of request 7/13: what a read returns of the bytes that are not enabled.

/// What a read met in the bytes that it does not enable, once for each of three places, in the order of the names.
#[derive(Clone, Copy)]
pub enum Neighbour {
    Changed,
    Cleared,
    Marked,
}

impl Neighbour {
    /// How many there are for each place.
    pub const COUNT: usize = Self::Marked as usize + 1;
}

pub const NEIGHBOURS: &[&str] = &[
    "ordinary, a bit that a write changed before",
    "ordinary, a marked bit that a write cleared before",
    "ordinary, a marked bit that is 1",
    "at A, a bit that a trusted write at B changed before",
    "at A, a marked bit that a trusted write at B cleared before",
    "at A, a marked bit at B that is 1",
    "trusted, a bit that a write changed before",
    "trusted, a marked bit that a write cleared before",
    "trusted, a marked bit that is 1",
];
