//! A buffer for lists that are mostly short: those that are not have a longer one, so that it is not compared each time.

use crate::twin::Twin;

/// Two buffers, of which one is lent.
pub struct Reach<Cell> {
    near: Twin<Cell>,
    far: Twin<Cell>,
    most_near: usize,
    is_far: bool,
}

impl<Cell: Copy + PartialEq> Reach<Cell> {
    /// Buffers that can lend up to so many cells, and up to so many more, all of them like this one at first.
    pub fn of(cell: Cell, near: usize, further: usize) -> Self {
        Self {
            near: Twin::of(cell, near),
            far: Twin::of(cell, near + further),
            most_near: near,
            is_far: false,
        }
    }

    /// Lends so many cells from now on.
    pub fn lend(&mut self, length: usize) {
        self.is_far = length > self.most_near;
        self.lent_mut().lend(length);
    }

    /// Lends these cells.
    pub fn lend_cells(&mut self, cells: &[Cell]) {
        self.lend(cells.len());
        self.lent_mut().set(0, cells);
    }

    /// Moves the start of what is lent from either buffer.
    pub fn shift(&mut self, cells: usize) {
        self.near.shift(cells);
        self.far.shift(cells);
    }

    /// The buffer that is lent.
    pub const fn lent(&self) -> &Twin<Cell> {
        if self.is_far { &self.far } else { &self.near }
    }

    /// As [`Reach::lent`], to be filled or written.
    pub const fn lent_mut(&mut self) -> &mut Twin<Cell> {
        if self.is_far { &mut self.far } else { &mut self.near }
    }
}

#[cfg(test)]
mod tests {
    use super::Reach;

    #[test]
    fn short_lists_are_lent_from_the_short_buffer() {
        let mut reach = Reach::of(0_u16, 4, 100);
        for length in [0, 4, 5, 104, 1] {
            reach.lend_cells(&vec![7; length]);
            assert_eq!(reach.lent().ours(), vec![7; length]);
            assert_eq!(reach.is_far, length > 4);
        }
    }
}
