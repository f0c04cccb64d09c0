//! Spaces for walks: one long random chain, and for each call a few edits that are undone after it.

mod broken;
mod nothing;

use std::ops::Range;

use super::board::{LONGEST_SPACE, SPACE_BYTES};
use super::cursor::Cursor;
use super::fault_words::FaultWords;
use super::first_word::FirstWords;
use super::random::Random;
use super::shape::Shape;
use crate::model::List;
use crate::twin::Twin;

/// The most calls that a scene lives for.
const LONGEST_LIFE: usize = 200;

/// A space in which all of a list's offsets are chained in a random order, or one of random bytes.
pub struct Scene {
    pub shape: Shape,
    pub space: Twin<u8>,
    /// Whether the bytes are random throughout.
    pub noise: bool,
    order: Vec<u16>,
    /// The words that the present call changed, with what they held.
    edits: Vec<(usize, u32)>,
    chain_lengths: Cursor,
    first_words: FirstWords,
    fault_words: FaultWords,
    calls_left: usize,
}

impl Scene {
    /// A scene whose life is over, to be renewed.
    pub fn spent(shape: Shape) -> Self {
        let order = (0..shape.maximum)
            .map(|place| (shape.floor + 4 * place) as u16)
            .collect();
        Self {
            shape,
            space: Twin::new(LONGEST_SPACE),
            noise: false,
            order,
            edits: Vec::new(),
            chain_lengths: Cursor::new(shape.maximum + 1),
            first_words: FirstWords::new(),
            fault_words: FaultWords::new(shape.maximum),
            calls_left: 0,
        }
    }

    /// Makes the space of one call. Where its sizes are right, the lengths of chains, the words at 100h and the words
    /// where a list breaks have their turn.
    pub fn prepare(&mut self, in_turn: bool, random: &mut Random) {
        self.space.lend(SPACE_BYTES);
        if self.calls_left == 0 {
            self.renew(random);
        }
        self.calls_left -= 1;
        if self.noise {
            return;
        }
        let headers = match random.weighted(&[35, 35, 22, 8]) {
            0 => self.chain_of_some_length(in_turn, random),
            1 => self.make_loop(in_turn, random),
            2 => self.go_below(in_turn, random),
            _ => return self.come_near_to_nothing(in_turn, random),
        };
        if random.percent(45) {
            self.blank(&headers, random);
        }
        if random.percent(25) {
            self.break_elsewhere(&headers, random);
        }
    }

    /// Puts the space back as it was before the last call.
    pub fn undo(&mut self) {
        self.space.lend(SPACE_BYTES);
        while let Some((offset, old)) = self.edits.pop() {
            self.space.set_word(offset, old);
        }
    }

    fn renew(&mut self, random: &mut Random) {
        self.calls_left = random.within(1, LONGEST_LIFE);
        self.noise = random.percent(10);
        self.space.shift(random.below(8));
        let zero = !self.noise && random.percent(10);
        self.space
            .refill(|bytes| if zero { bytes.fill(0) } else { random.fill(bytes) });
        if self.noise {
            return;
        }
        let movable = usize::from(self.shape.list == List::Extended);
        random.shuffle(&mut self.order[movable..]);
        let nulls = random.pick(&[0, 0, 3, 12]);
        for place in 0..self.order.len() {
            let next = self.order.get(place + 1).copied().unwrap_or(0);
            if random.percent(nulls) {
                self.drop_id(place, random);
            }
            self.point(place, next, random);
        }
        self.declare_present(random);
        self.edits.clear();
    }

    /// A list that is not called empty, whatever pointer its first header gets.
    fn declare_present(&mut self, random: &mut Random) {
        match self.shape.list {
            List::Compatible => self.edit(0x004, 1 << 20, 1 << 20),
            List::Extended => self.edit(0x100, 0xFFFF, random.within(1, 0xFFFF) as u32),
            List::Trusted => {}
        }
        let first = self.order[0];
        self.point_start(first, random);
    }

    /// A legal chain: its length is the next in turn, a short one, or one of the edges.
    ///
    /// This and the others that make a list answer the places of the headers that a walk meets.
    fn chain_of_some_length(&mut self, in_turn: bool, random: &mut Random) -> Range<usize> {
        let maximum = self.shape.maximum;
        let length = match random.weighted(&[60, 28, 12]) {
            0 => self.chain_lengths.draw(in_turn, random),
            1 => random.below(24),
            _ => random.pick(&[0, 1, maximum - 1, maximum]),
        };
        self.chain(length, random)
    }

    /// A legal chain: a part of the long one.
    fn chain(&mut self, length: usize, random: &mut Random) -> Range<usize> {
        if length == 0 {
            match self.shape.list {
                List::Extended => self.clear_first_word(random),
                _ => self.point_start(0, random),
            }
            return 0..0;
        }
        let first = self.begin(length, random);
        let end = first + length;
        if end < self.order.len() {
            self.point(end - 1, 0, random);
        }
        first..end
    }

    /// Starts the list at a place of the order from which so many offsets follow, and answers that place.
    fn begin(&mut self, needed: usize, random: &mut Random) -> usize {
        self.begin_up_to(self.order.len() - needed, random)
    }

    /// Starts the list at a place of the order up to a last one, and answers it. The extended list starts with the first.
    fn begin_up_to(&mut self, last: usize, random: &mut Random) -> usize {
        if self.shape.list == List::Extended {
            return 0;
        }
        let first = random.within(0, last);
        self.point_start(self.order[first], random);
        first
    }

    /// Sets the start pointer, with random bottom bits. The extended list has none.
    fn point_start(&mut self, to: u16, random: &mut Random) {
        let pointer = u32::from(to) | random.below(4) as u32;
        match self.shape.list {
            List::Compatible => self.edit(0x034, 0xFF, pointer),
            List::Extended => {}
            List::Trusted => self.edit(0x004, 0xFFF, pointer),
        }
    }

    /// Sets the next pointer of the header at a place of the order, with random bottom bits.
    fn point(&mut self, place: usize, to: u16, random: &mut Random) {
        let pointer = u32::from(to) | random.below(4) as u32;
        let header = usize::from(self.order[place]);
        match self.shape.list {
            List::Compatible => self.edit(header, 0xFF << 8, pointer << 8),
            _ => self.edit(header, 0xFFF << 20, pointer << 20),
        }
    }

    /// Changes some bits of a word, and notes what it held.
    fn edit(&mut self, offset: usize, mask: u32, value: u32) {
        let old = self.space.word(offset);
        self.edits.push((offset, old));
        self.space.set_word(offset, old & !mask | value & mask);
    }
}
