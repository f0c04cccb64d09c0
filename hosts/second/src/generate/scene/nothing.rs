//! Lists with nothing in them, or hardly anything, and headers that lose their ID.

use std::ops::Range;

use super::Scene;
use crate::generate::nulls::draw_nulls;
use crate::generate::random::Random;
use crate::model::List;

impl Scene {
    /// A list that is called empty or hardly is not, or one that ends with a header of 0.
    pub(super) fn come_near_to_nothing(&mut self, in_turn: bool, random: &mut Random) {
        match self.shape.list {
            List::Extended => self.set_first_word(in_turn, random),
            List::Compatible if random.percent(65) => self.declare_empty(random),
            _ => self.end_with_zero(random),
        }
    }

    /// A compatible list that the table calls empty while its pointers hold a chain, or a broken one.
    fn declare_empty(&mut self, random: &mut Random) {
        match random.below(4) {
            0 => self.chain(random.within(2, 40), random),
            1 => self.make_loop(false, random),
            2 => self.go_below(false, random),
            _ => self.start_below(random),
        };
        self.edit(0x004, 1 << 20, 0);
    }

    /// A chain of a header or a few, the last of them with nothing in it.
    fn end_with_zero(&mut self, random: &mut Random) {
        let headers = self.chain(random.pick(&[1, 1, 2, 3]), random);
        let last = usize::from(self.order[headers.end - 1]);
        match self.shape.list {
            List::Compatible => self.edit(last, 0xFFFF, 0),
            _ => self.edit(last, u32::MAX, 0),
        }
    }

    /// An extended list that is empty, or hardly is not. A pointer beyond 100h leads into the long chain.
    fn set_first_word(&mut self, in_turn: bool, random: &mut Random) {
        match self.first_words.draw(in_turn, random) {
            0 => self.clear_first_word(random),
            word => self.edit(0x100, u32::MAX, word),
        }
    }

    /// The zero word at 100h, and at 104h too or not.
    pub(super) fn clear_first_word(&mut self, random: &mut Random) {
        self.edit(0x100, u32::MAX, 0);
        if random.percent(40) {
            self.edit(0x104, u32::MAX, 0);
        }
    }

    /// Takes the IDs from some of a chain's headers.
    pub(super) fn blank(&mut self, headers: &Range<usize>, random: &mut Random) {
        for place in draw_nulls(headers, random).into_iter().flatten() {
            self.drop_id(place, random);
        }
    }

    /// Takes its ID from the header at a place of the order, and its version too or not.
    pub(super) fn drop_id(&mut self, place: usize, random: &mut Random) {
        let taken = match self.shape.list {
            List::Compatible => 0xFF,
            _ if random.percent(50) => 0xFFFF,
            _ => 0xF_FFFF,
        };
        self.edit(usize::from(self.order[place]), taken, 0);
    }
}
