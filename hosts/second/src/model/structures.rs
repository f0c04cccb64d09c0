//! The structures of a new board, by request 10/13, and whether a list of them may be laid out at all.

use std::ops::RangeInclusive;

use super::refusal::Refusal;

/// "given 1 to 960 structures"
const COUNTS: RangeInclusive<usize> = 1..=960;
/// "version (0 to 15)"
const VERSIONS: RangeInclusive<u16> = 0..=15;
/// "length (4 to 3,840 bytes)"
const LENGTHS: RangeInclusive<u16> = 4..=3840;

/// "structures with ID, version (0 to 15) and length". A host may put anything into them.
#[derive(Clone, Copy, Debug, PartialEq, Eq)]
pub struct Structure {
    pub id: u16,
    pub version: u16,
    pub length: u16,
}

impl Structure {
    const fn is_bad(&self) -> bool {
        self.id == 0 || !in_range(&VERSIONS, self.version) || !in_range(&LENGTHS, self.length)
    }
}

const fn in_range(range: &RangeInclusive<u16>, value: u16) -> bool {
    *range.start() <= value && value <= *range.end()
}

/// "Bad counts, versions or lengths: 1". "ID 0000h is refused with 1, so that no first structure looks absent."
pub(super) fn vet(structures: &[Structure]) -> Result<(), Refusal> {
    if !COUNTS.contains(&structures.len()) || structures.iter().any(Structure::is_bad) {
        return Err(Refusal::Outside);
    }
    Ok(())
}
