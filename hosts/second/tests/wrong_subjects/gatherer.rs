//! What the wrong ways to read a Multicast capability are made of.

use second::compare::{Reference, Subject};
use thawribbon::raw::Groups;

use crate::harness::{Wrong, expect_caught, word};

/// What the model answers: the number, and what it writes.
pub fn read(space: &[u8], at: usize) -> (u8, Groups) {
    let mut groups = Groups::ZEROS;
    (Reference.multicast(space, at, &mut groups), groups)
}

/// A step of the reading, each with a number of its own.
#[derive(Clone, Copy, PartialEq, Eq)]
pub enum Step {
    Structure,
    Length,
    Numbers,
}

/// A reading by habits, one of which may be wrong. Bytes behind the space are taken for 0.
#[derive(Clone, Copy)]
pub struct Habits {
    pub is_size: fn(usize) -> bool,
    pub is_offset: fn(usize) -> bool,
    pub order: [Step; 3],
    pub is_structure: fn(u32) -> bool,
    pub least_bytes: usize,
    pub is_unsound: fn(&Groups) -> bool,
}

pub const RIGHT: Habits = Habits {
    is_size: |length| length == 4096,
    is_offset: |at| at % 4 == 0 && (0x100..0x1000).contains(&at),
    order: [Step::Structure, Step::Length, Step::Numbers],
    is_structure: |header| header << 12 == 0x1_0012 << 12,
    least_bytes: 0x28,
    is_unsound: |groups| groups.num_group > groups.max_group || groups.enable == 1 && groups.index < 12,
};

/// The numbers that stand in the bytes of a capability.
pub fn numbers(bytes: &[u8]) -> Groups {
    let eight = |from: usize| u64::from(word(bytes, from)) | u64::from(word(bytes, from + 4)) << 32;
    Groups {
        max_group: eight(4) & 63,
        num_group: eight(4) >> 16 & 63,
        enable: eight(4) >> 31 & 1,
        index: eight(8) & 63,
        base: eight(8) >> 12 << 12,
        receive: eight(16),
        block_all: eight(24),
    }
}

impl Habits {
    fn answer(&self, space: &[u8], at: usize) -> Result<Groups, u8> {
        if !(self.is_size)(space.len()) || !(self.is_offset)(at) {
            return Err(1);
        }
        let left = space.get(at..).unwrap_or(&[]);
        let mut bytes = [0; 0x28];
        let length = left.len().min(0x28);
        bytes[..length].copy_from_slice(&left[..length]);
        let groups = numbers(&bytes);
        for step in self.order {
            let (number, is_wrong) = match step {
                Step::Structure => (8, !(self.is_structure)(word(&bytes, 0))),
                Step::Length => (9, left.len() < self.least_bytes),
                Step::Numbers => (13, (self.is_unsound)(&groups)),
            };
            if is_wrong {
                return Err(number);
            }
        }
        Ok(groups)
    }
}

/// Reads by habits.
pub fn read_by(habits: Habits) -> Wrong {
    Wrong::multicast(move |space, at, groups| {
        let answer = habits.answer(space, at);
        *groups = answer.unwrap_or(Groups::ZEROS);
        answer.err().unwrap_or(0)
    })
}

/// Reads where the answer is the model's unless something else is put in its place.
pub fn or_else(other: impl Fn(&[u8], usize, u8, Groups) -> Option<(u8, Groups)> + 'static) -> Wrong {
    Wrong::multicast(move |space, at, groups| {
        let right = read(space, at);
        let (number, told) = other(space, at, right.0, right.1).unwrap_or(right);
        *groups = told;
        number
    })
}

/// Reads where what is told of a capability that is not refused is changed, given with its bytes.
pub fn with_told(change: impl Fn(&[u8], Groups) -> Groups + 'static) -> Wrong {
    or_else(move |space, at, number, groups| (number == 0).then(|| (0, change(&space[at..], groups))))
}

/// Fails unless a reading is caught.
pub fn expect_reading_caught(subject: Wrong) {
    expect_caught(subject, "multicast");
}

/// Fails unless a reading is caught that tells other numbers.
pub fn expect_told_caught(change: impl Fn(&[u8], Groups) -> Groups + 'static) {
    expect_reading_caught(with_told(change));
}

/// Fails unless a reading by habits is caught.
pub fn expect_habits_caught(habits: Habits) {
    expect_reading_caught(read_by(habits));
}
