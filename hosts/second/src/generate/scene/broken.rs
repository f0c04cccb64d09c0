//! Lists that are broken: they go round a loop or below the floor. And faults where no walk comes.

use std::ops::Range;

use super::Scene;
use crate::generate::loops::draw_loop;
use crate::generate::random::Random;
use crate::model::List;

impl Scene {
    /// A chain that comes back to itself: after a tail, so many offsets over and over.
    pub(super) fn make_loop(&mut self, in_turn: bool, random: &mut Random) -> Range<usize> {
        if random.percent(40) {
            return self.loop_in_turn(in_turn, random);
        }
        let (tail, length) = draw_loop(self.shape.maximum, random);
        let first = self.begin(tail + length, random);
        let back_to = first + tail;
        self.close(first, back_to, back_to + length - 1, random)
    }

    /// A loop whose last header, or the one that it leads back to, is a word in turn.
    fn loop_in_turn(&mut self, in_turn: bool, random: &mut Random) -> Range<usize> {
        let (back_to, last) = if random.percent(50) {
            let word = self.fault_words.again.draw(in_turn, random);
            let last = self.place_of(word);
            (random.within(0, last), last)
        } else {
            let word = self.fault_words.back_to.draw(in_turn, random);
            let back_to = self.place_of(word);
            (back_to, random.within(back_to, self.order.len() - 1))
        };
        let first = self.begin_up_to(back_to, random);
        self.close(first, back_to, last, random)
    }

    /// Points the last header of a list back to one of its headers.
    fn close(&mut self, first: usize, back_to: usize, last: usize, random: &mut Random) -> Range<usize> {
        self.point(last, self.order[back_to], random);
        first..last + 1
    }

    /// A chain that leads below the floor, at once or after some steps.
    pub(super) fn go_below(&mut self, in_turn: bool, random: &mut Random) -> Range<usize> {
        let maximum = self.shape.maximum;
        if random.percent(40) {
            let word = self.fault_words.below.draw(in_turn, random);
            let last = self.place_of(word);
            let first = self.begin_up_to(last, random);
            return self.sink(first, last, random);
        }
        let steps = match random.below(9) {
            0 | 1 if self.shape.list != List::Extended => return self.start_below(random),
            0..=2 => 1,
            3 | 4 => random.within(2, 9),
            5 => random.within(10, 40),
            6 => random.within(1, maximum),
            7 => maximum - 1,
            _ => maximum,
        };
        let first = self.begin(steps, random);
        self.sink(first, first + steps - 1, random)
    }

    /// A list whose start leads below the floor. The extended list has none.
    pub(super) fn start_below(&mut self, random: &mut Random) -> Range<usize> {
        let below = self.offset_below(random);
        self.point_start(below, random);
        0..0
    }

    /// Points the last header of a list below the floor.
    fn sink(&mut self, first: usize, last: usize, random: &mut Random) -> Range<usize> {
        let below = self.offset_below(random);
        self.point(last, below, random);
        first..last + 1
    }

    /// The offset just below the floor, or any below it but 0.
    const fn offset_below(&self, random: &mut Random) -> u16 {
        let floor = self.shape.floor;
        if random.percent(50) {
            (floor - 4) as u16
        } else {
            4 * random.within(1, floor / 4 - 1) as u16
        }
    }

    /// The place in the order of a word, counted from the floor.
    fn place_of(&self, word: usize) -> usize {
        let offset = (self.shape.floor + 4 * word) as u16;
        let place = self.order.iter().position(|&at| at == offset);
        place.expect("every word of the list has its place in the order")
    }

    /// Lays faults where a walk of these headers does not come, before them and after them: a pointer below the floor, or
    /// a loop of one or two. An extended list without headers is called empty, and stays so.
    pub(super) fn break_elsewhere(&mut self, headers: &Range<usize>, random: &mut Random) {
        if headers.is_empty() && self.shape.list == List::Extended {
            return;
        }
        for unmet in [0..headers.start, headers.end..self.order.len()] {
            if unmet.is_empty() {
                continue;
            }
            let last = random.within(unmet.start, unmet.end - 1);
            if random.percent(50) {
                self.sink(last, last, random);
            } else {
                let back_to = random.within(unmet.start.max(last.saturating_sub(1)), last);
                self.close(back_to, back_to, last, random);
            }
        }
    }
}
