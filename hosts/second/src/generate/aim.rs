//! Addresses aimed at the record of the port that they enter by: at a group, below the base, above the last group, at a
//! record that is not enabled, or at nothing.

use thawribbon::raw::Groups;

use super::cursor::Cursor;
use super::groups::{HIGHEST_GROUP, LEAST_INDEX, numbers, sound_groups};
use super::random::Random;

/// The indexes that a record may have while it is enabled.
const INDEXES: usize = 52;
/// The lowest bit that a group number does not have.
const BIT_ABOVE: usize = 6;

/// A record, an address for it, and the group whose bits of the registers should be varied.
pub struct Aim {
    pub entered: Groups,
    pub address: u64,
    pub group: u64,
}

/// Makes aims. Groups, indexes and the bits of too high a quotient have their turn in calls that are not refused.
pub struct AimMaker {
    groups: Cursor,
    hit_indexes: Cursor,
    indexes_below: Cursor,
    indexes_above: Cursor,
    bits_above: Cursor,
}

impl AimMaker {
    pub const fn new() -> Self {
        Self {
            groups: Cursor::new(64),
            hit_indexes: Cursor::new(INDEXES),
            indexes_below: Cursor::new(INDEXES),
            indexes_above: Cursor::new(INDEXES),
            bits_above: Cursor::new(52 - BIT_ABOVE),
        }
    }

    pub fn aim(&mut self, in_turn: bool, random: &mut Random) -> Aim {
        match random.weighted(&[54, 10, 18, 10, 8]) {
            0 => self.hit(in_turn, random),
            1 => self.below(in_turn, random),
            2 => self.above(in_turn, random),
            3 => disabled(self.hit(false, random), random),
            _ => anywhere(random),
        }
    }

    /// An address in the window of a group, which may go past 2^64.
    fn hit(&mut self, in_turn: bool, random: &mut Random) -> Aim {
        let (group, index) = if random.percent(50) {
            let group = self.groups.draw(in_turn, random) as u64;
            let highest = u64::from(group.leading_zeros()).min(63);
            (group, edge_or_any(LEAST_INDEX, highest, random))
        } else {
            let index = LEAST_INDEX + self.hit_indexes.draw(in_turn, random) as u64;
            (edge_or_any(0, HIGHEST_GROUP.min(u64::MAX >> index), random), index)
        };
        let (max_group, num_group) = numbers(group, random);
        in_window(group, index, max_group, num_group, random)
    }

    /// An address below the base. Windows that go past 2^64 would have it if addresses began anew there.
    fn below(&mut self, in_turn: bool, random: &mut Random) -> Aim {
        let index = LEAST_INDEX + self.indexes_below.draw(in_turn, random) as u64;
        let (max_group, num_group) = numbers(0, random);
        let span = ((u128::from(num_group) + 1) << index).min(1 << 63) as u64;
        let (base, address) = if random.percent(40) {
            let base = (u64::MAX - random.bits() % span) & !0xFFF;
            (base, base.wrapping_add(random.bits() % span))
        } else {
            let base = (random.bits() >> random.below(52) & !0xFFF).max(0x1000);
            let any = random.bits() % base;
            (base, random.pick(&[base - 1, base - 1, base - 1, 0, any]))
        };
        let group = random.bits() % 64;
        aim(group, index, [max_group, num_group], base, address)
    }

    /// An address above the last group: in the next window, in one whose number is right but for one bit, or in any.
    fn above(&mut self, in_turn: bool, random: &mut Random) -> Aim {
        if random.percent(40) {
            let bit = BIT_ABOVE + self.bits_above.draw(in_turn, random);
            let index = edge_or_any(LEAST_INDEX, 63 - bit as u64, random);
            let (max_group, num_group) = numbers(0, random);
            let low = edge_or_any(0, num_group, random);
            return in_window(1 << bit | low, index, max_group, num_group, random);
        }
        let index = LEAST_INDEX + self.indexes_above.draw(in_turn, random) as u64;
        let windows = u64::MAX >> index;
        let num_group = edge_or_any(0, HIGHEST_GROUP.min(windows - 1), random);
        let max_group = edge_or_any(num_group, HIGHEST_GROUP, random);
        let any = num_group + 1 + random.bits() % (windows - num_group);
        let quotient = random.pick(&[num_group + 1, num_group + 1, num_group + 1, windows, any]);
        in_window(quotient, index, max_group, num_group, random)
    }
}

/// An address in the window of a number, and a base with which that window begins below 2^64.
fn in_window(quotient: u64, index: u64, max_group: u64, num_group: u64, random: &mut Random) -> Aim {
    let from_base = quotient << index;
    let highest = (u64::MAX - from_base) & !0xFFF;
    let ends_at_top = |windows: u64| {
        let span = (u128::from(windows) + 1) << index;
        (1_u128 << 64)
            .checked_sub(span)
            .map_or(highest, |base| base as u64)
            .min(highest)
    };
    let any = random.bits() % (highest / 4096 + 1) * 4096;
    let short = (any >> random.below(52)) & !0xFFF;
    let tops = [ends_at_top(quotient), ends_at_top(num_group)];
    let base = random.pick(&[0, highest, highest, tops[0], tops[1], any, any, any, short, short]);
    let first = base + from_base;
    let last = first + ((1_u64 << index) - 1).min(u64::MAX - first);
    let any = first + random.bits() % (last - first + 1);
    let address = random.pick(&[first, last, any]);
    aim(quotient % 64, index, [max_group, num_group], base, address)
}

/// An aim at an enabled record. Its registers are still 0.
const fn aim(group: u64, index: u64, [max_group, num_group]: [u64; 2], base: u64, address: u64) -> Aim {
    Aim {
        entered: Groups {
            max_group,
            num_group,
            enable: 1,
            index,
            base,
            receive: 0,
            block_all: 0,
        },
        address,
        group,
    }
}

/// An aim at a record that is not enabled, and so may have any index.
fn disabled(aim: Aim, random: &mut Random) -> Aim {
    let low = random.bits() % LEAST_INDEX;
    let index = random.pick(&[aim.entered.index, aim.entered.index, low]);
    let entered = Groups {
        enable: 0,
        index,
        ..aim.entered
    };
    Aim { entered, ..aim }
}

/// Any sound record, and an address at an edge or anywhere.
fn anywhere(random: &mut Random) -> Aim {
    let entered = sound_groups(random);
    let any = random.bits();
    let near = entered.base.wrapping_add(any >> random.below(64));
    let edges = [0, u64::MAX, 1 << 63, (1 << 63) - 1];
    let edge = random.pick(&edges);
    Aim {
        address: random.pick(&[edge, edge, entered.base, near, near, any, any]),
        group: random.bits() % 64,
        entered,
    }
}

/// The lowest, the highest, or any number between them. There are less than 2^64 of them.
fn edge_or_any(lowest: u64, highest: u64, random: &mut Random) -> u64 {
    let any = lowest + random.bits() % (highest - lowest + 1);
    random.pick(&[lowest, highest, any, any, any])
}

#[cfg(test)]
mod tests {
    use super::AimMaker;
    use crate::generate::Random;

    #[test]
    fn an_aim_at_a_group_hits_it() {
        let (mut maker, mut random) = (AimMaker::new(), Random::new(1));
        for _ in 0..20_000 {
            let aim = maker.hit(true, &mut random);
            let distance = aim.address.checked_sub(aim.entered.base).expect("from the base on");
            assert_eq!(distance >> aim.entered.index, aim.group);
            assert!(aim.group <= aim.entered.num_group && aim.entered.num_group <= aim.entered.max_group);
        }
    }

    #[test]
    fn an_aim_above_the_last_group_is_above_it() {
        let (mut maker, mut random) = (AimMaker::new(), Random::new(1));
        for _ in 0..20_000 {
            let aim = maker.above(true, &mut random);
            let distance = aim.address.checked_sub(aim.entered.base).expect("from the base on");
            assert!(distance >> aim.entered.index > aim.entered.num_group);
        }
    }
}
