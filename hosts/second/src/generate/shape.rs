//! The three lists' table, written for the generator and the classes apart from the model's own.

use crate::model::List;

/// One line of document 01's table of lists.
#[derive(Clone, Copy)]
pub struct Shape {
    pub list: List,
    /// The lowest offset of a header.
    pub floor: usize,
    /// The longest chain, and the least list room.
    pub maximum: usize,
}

impl Shape {
    /// The list's place in [`SHAPES`].
    pub const fn place(self) -> usize {
        self.list as usize
    }

    /// The highest offset of a header.
    pub const fn highest(self) -> usize {
        self.floor + 4 * (self.maximum - 1)
    }
}

/// The lines in the order of the table.
pub const SHAPES: [Shape; 3] = [
    Shape {
        list: List::Compatible,
        floor: 0x040,
        maximum: 48,
    },
    Shape {
        list: List::Extended,
        floor: 0x100,
        maximum: 960,
    },
    Shape {
        list: List::Trusted,
        floor: 0x008,
        maximum: 1022,
    },
];
