//! A buffer kept twice, one for the model and one for the subject, with margins that no call may touch.
//!
//! Both copies are always set alike. After a call, every cell of one is compared with the other's, margins included.

/// The cells before and after the part that is lent.
const MARGIN: usize = 32;

/// Two like buffers, what they held before the call, and which part of them is lent.
pub struct Twin<Cell> {
    before: Vec<Cell>,
    ours: Vec<Cell>,
    theirs: Vec<Cell>,
    start: usize,
    length: usize,
}

impl<Cell: Copy + PartialEq + Default> Twin<Cell> {
    /// A buffer that can lend up to so many cells.
    pub fn new(most: usize) -> Self {
        Self::of(Cell::default(), most)
    }
}

impl<Cell: Copy + PartialEq> Twin<Cell> {
    /// A buffer that can lend up to so many cells, all of them like this one at first.
    pub fn of(cell: Cell, most: usize) -> Self {
        let cells = vec![cell; most + 2 * MARGIN];
        Self {
            before: cells.clone(),
            ours: cells.clone(),
            theirs: cells,
            start: MARGIN,
            length: most,
        }
    }

    /// Lends so many cells from now on.
    pub fn lend(&mut self, length: usize) {
        debug_assert!(length + 2 * MARGIN <= self.ours.len());
        self.length = length;
    }

    /// Moves the start of what is lent by up to seven cells into the first margin, so that no start is favoured.
    pub fn shift(&mut self, cells: usize) {
        self.start = MARGIN - cells % 8;
    }

    /// Fills the whole buffer, margins included.
    pub fn refill(&mut self, fill: impl FnOnce(&mut [Cell])) {
        fill(&mut self.ours);
        self.theirs.copy_from_slice(&self.ours);
    }

    /// Fills the lent part.
    pub fn refill_lent(&mut self, fill: impl FnOnce(&mut [Cell])) {
        fill(self.ours_mut());
        self.theirs.copy_from_slice(&self.ours);
    }

    /// Sets some cells from a place of the lent part on; they may lie in the margins.
    pub fn set(&mut self, place: usize, cells: &[Cell]) {
        let from = self.start + place;
        self.ours[from..from + cells.len()].copy_from_slice(cells);
        self.theirs[from..from + cells.len()].copy_from_slice(cells);
    }

    /// Keeps what the buffer holds, to be told later by [`Twin::before`].
    pub fn remember(&mut self) {
        self.before.copy_from_slice(&self.ours);
    }

    /// Puts both copies back to what was last remembered.
    pub fn restore(&mut self) {
        self.ours.copy_from_slice(&self.before);
        self.theirs.copy_from_slice(&self.before);
    }

    /// What the lent part held when it was last remembered.
    pub fn before(&self) -> &[Cell] {
        &self.before[self.start..self.start + self.length]
    }

    /// The model's copy.
    pub fn ours(&self) -> &[Cell] {
        &self.ours[self.start..self.start + self.length]
    }

    /// The model's copy, to be lent to the model.
    pub fn ours_mut(&mut self) -> &mut [Cell] {
        &mut self.ours[self.start..self.start + self.length]
    }

    /// The subject's copy, to be lent to the subject.
    pub fn theirs_mut(&mut self) -> &mut [Cell] {
        &mut self.theirs[self.start..self.start + self.length]
    }

    /// The subject's copy.
    pub fn theirs(&self) -> &[Cell] {
        &self.theirs[self.start..self.start + self.length]
    }

    /// Whether every cell is alike in both copies.
    pub fn agrees(&self) -> bool {
        self.ours == self.theirs
    }

    /// The first cell that differs: its place from the start of what is lent, the model's value and the subject's.
    pub fn first_difference(&self) -> Option<(isize, Cell, Cell)> {
        let pairs = self.ours.iter().zip(&self.theirs).enumerate();
        let mut unlike = pairs.filter(|(_, (ours, theirs))| ours != theirs);
        unlike
            .next()
            .map(|(place, (&ours, &theirs))| (place as isize - self.start as isize, ours, theirs))
    }
}

impl Twin<u8> {
    /// The little-endian word at an offset of the lent part.
    pub fn word(&self, offset: usize) -> u32 {
        word(self.ours(), offset)
    }

    /// Sets a little-endian word.
    pub fn set_word(&mut self, offset: usize, value: u32) {
        self.set(offset, &value.to_le_bytes());
    }
}

/// The little-endian word at an offset of some bytes.
pub fn word(bytes: &[u8], offset: usize) -> u32 {
    u32::from_le_bytes([bytes[offset], bytes[offset + 1], bytes[offset + 2], bytes[offset + 3]])
}

#[cfg(test)]
mod tests {
    use super::Twin;

    #[test]
    fn a_cell_outside_what_is_lent_counts() {
        let mut twin = Twin::<u8>::new(16);
        twin.lend(4);
        assert!(twin.agrees());
        twin.lend(6);
        twin.theirs_mut()[5] = 1;
        twin.lend(4);
        assert_eq!(twin.first_difference(), Some((5, 0, 1)));
        assert!(!twin.agrees());
    }
}
