//! Spaces for headers to be written into, again and again: what else they hold, and what their lists are before.

use super::board::{LONGEST_SPACE, SPACE_BYTES};
use super::lengths::WrongLengths;
use super::random::Random;
use crate::twin::Twin;

/// The most calls that a space lives for.
const LONGEST_LIFE: usize = 24;

/// A space that lives for some calls, and keeps what is written into it.
pub struct LayoutSpace {
    pub space: Twin<u8>,
    wrong_lengths: WrongLengths,
    calls_left: usize,
}

impl LayoutSpace {
    /// A space whose life is over, to be renewed.
    pub fn spent() -> Self {
        Self {
            space: Twin::new(LONGEST_SPACE),
            wrong_lengths: WrongLengths::new(),
            calls_left: 0,
        }
    }

    /// Begins a call: lends the whole space, made anew where its life is over. Now and then, its lists are others.
    pub fn begin(&mut self, random: &mut Random) {
        self.space.lend(SPACE_BYTES);
        if self.calls_left == 0 {
            self.renew(random);
        }
        self.calls_left -= 1;
        if random.percent(12) {
            self.chain_compatible(random);
        }
        if random.percent(25) {
            self.break_extended(random);
        }
        self.space.remember();
    }

    /// Lends another length.
    pub fn lend_wrong_length(&mut self, random: &mut Random) {
        self.space.lend(self.wrong_lengths.draw(random));
        self.space.remember();
    }

    fn renew(&mut self, random: &mut Random) {
        self.calls_left = random.within(1, LONGEST_LIFE);
        self.space.shift(random.below(8));
        let filled = random.weighted(&[60, 20, 20]);
        self.space.refill(|bytes| match filled {
            0 => random.fill(bytes),
            1 => bytes.fill(0x00),
            _ => bytes.fill(0xFF),
        });
        self.chain_compatible(random);
    }

    /// A compatible list of some headers, sound or broken, or one that is called empty.
    fn chain_compatible(&mut self, random: &mut Random) {
        let mut places: Vec<u8> = (0x40..=0xFC).step_by(4).collect();
        random.shuffle(&mut places);
        places.truncate(random.pick(&[1, 2, 3, 7, 47, 48]));
        let back = random.pick(&places);
        let below = 4 * random.within(1, 15) as u8;
        let last = random.pick(&[0, 0, 0, back, below]);
        for (place, &at) in places.iter().enumerate() {
            let next = places.get(place + 1).map_or(last, |&next| next);
            self.space.set(usize::from(at) + 1, &[next]);
        }
        let status = self.space.ours()[0x06];
        let is_empty = random.percent(15);
        let status = if is_empty { status & !0x10 } else { status | 0x10 };
        self.space.set(0x06, &[status]);
        self.space
            .set(0x34, &[random.pick(&[places[0], places[0], places[0], 0, below])]);
    }

    /// Another word at 100h: none, one that leads to itself, below the floor, to the end, or to a header that leads back.
    fn break_extended(&mut self, random: &mut Random) {
        let other = 4 * random.within(0x41, 0x3FF) as u32;
        let below = 4 * random.within(1, 0x3F) as u32;
        let any = random.bits() as u32 & 0x000F_FFFF | 1;
        let pointer = random.pick(&[0x100, below, 0, other, other]);
        let first = random.pick(&[pointer << 20 | any, pointer << 20 | any, pointer << 20 | any, 0]);
        self.space.set_word(0x100, first);
        if pointer == other {
            let back = random.pick(&[0x100, other, below, 0]);
            self.space.set_word(other as usize, back << 20 | any);
        }
    }
}
