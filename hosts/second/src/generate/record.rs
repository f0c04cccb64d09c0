//! A space for records that lives for some calls, and the offset that is asked for.

use super::board::{LONGEST_SPACE, SPACE_BYTES};
use super::random::Random;
use crate::twin::Twin;

/// The most calls that a scene lives for.
const LONGEST_LIFE: usize = 200;

/// A space into which each call may put a record, or one of random bytes that stays as it is.
pub struct RecordScene {
    pub space: Twin<u8>,
    pub at: usize,
    /// Whether the bytes are random throughout.
    pub noise: bool,
    calls_left: usize,
}

impl RecordScene {
    /// A scene whose life is over, to be renewed.
    pub fn spent() -> Self {
        Self {
            space: Twin::new(LONGEST_SPACE),
            at: 0,
            noise: false,
            calls_left: 0,
        }
    }

    /// Begins a call: lends the whole space, made anew where its life is over, and asks for any offset where the scene
    /// is noise.
    pub fn begin(&mut self, random: &mut Random) {
        self.space.lend(SPACE_BYTES);
        if self.calls_left == 0 {
            self.renew(random);
        }
        self.calls_left -= 1;
        if self.noise {
            let any = random.bits() as usize;
            self.at = random.pick(&[any, any & 0xFFFF_FFFF, any & 0xFFF, any & 0xFFC, any & 0xFC]);
        }
    }

    fn renew(&mut self, random: &mut Random) {
        self.calls_left = random.within(1, LONGEST_LIFE);
        self.noise = random.percent(10);
        self.space.shift(random.below(8));
        let zero = !self.noise && random.percent(20);
        self.space
            .refill(|bytes| if zero { bytes.fill(0) } else { random.fill(bytes) });
    }

    /// Sets some bits of the word at so many bytes from the record's start, as far as a space of 4,096 bytes goes.
    pub fn set_bits(&mut self, from_start: usize, mask: u32, value: u32) {
        let place = self.at.saturating_add(from_start);
        if place > SPACE_BYTES - 4 {
            return;
        }
        let lent = self.space.ours().len();
        self.space.lend(SPACE_BYTES);
        let old = self.space.word(place);
        self.space.set_word(place, old & !mask | value & mask);
        self.space.lend(lent);
    }
}

/// How many faults a record gets: none, one, or two.
pub fn number_of_faults(random: &mut Random) -> usize {
    random.weighted(&[40, 44, 16])
}

/// An offset above its range: just above, or one that meets the given offset in its low 12, 16 or 32 bits.
pub fn far(at: usize, random: &mut Random) -> usize {
    let low = at & 0xFFC;
    match random.below(8) {
        0 => 0x1000 + 4 * random.below(4),
        1 => random.within(1, 15) << 12 | low,
        2 => random.within(1, 15) << 16 | low,
        3 => (1 << 32) - 4 * random.within(1, 1024),
        4 | 5 => 1 << 32 | low,
        6 => usize::MAX - 3 - 4 * random.below(1023),
        _ => usize::MAX << random.within(13, 63) | low,
    }
}
