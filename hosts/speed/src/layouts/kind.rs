//! The kinds of layouts that are timed, one for each row.

use super::draft::Draft;
use super::lent::Lent;
use crate::random::Random;

/// How many structures the longest list has.
pub const MOST: usize = 960;

/// What is done, for how many structures, how they or their offsets are changed before, and the number that is answered.
pub struct Kind {
    pub what: &'static str,
    pub job: Job,
    pub number: u64,
    count: usize,
    change: fn(&mut Draft),
}

/// What a side does with structures and their offsets.
#[derive(Clone, Copy, PartialEq, Eq)]
pub enum Job {
    Plan,
    Check,
    Write,
    /// Plans, writes the plan and walks what is written.
    PlanWriteWalk,
}

pub const KINDS: [Kind; 15] = [
    done("layout, planned, 1 structure", Job::Plan, 1),
    done("layout, planned, 12 structures", Job::Plan, 12),
    done("layout, planned, 96 structures", Job::Plan, 96),
    done("layout, planned, 960 structures", Job::Plan, MOST),
    done("layout, checked, 1 structure", Job::Check, 1),
    done("layout, checked, 12 structures", Job::Check, 12),
    done("layout, checked, 96 structures", Job::Check, 96),
    done("layout, checked, 960 structures", Job::Check, MOST),
    done("layout, written, 1 structure", Job::Write, 1),
    done("layout, written, 12 structures", Job::Write, 12),
    done("layout, written, 96 structures", Job::Write, 96),
    done("layout, written, 960 structures", Job::Write, MOST),
    done(
        "layout, planned, written and walked, 12 structures",
        Job::PlanWriteWalk,
        12,
    ),
    Kind {
        number: 14,
        change: |draft| draft.structures[MOST - 1].length = 5,
        ..done(
            "layout, planned, refused 14, the last of 960 a byte too long",
            Job::Plan,
            MOST,
        )
    },
    Kind {
        number: 18,
        change: |draft| draft.offsets[MOST - 1] = 0xFF8,
        ..done(
            "layout, written, refused 18, the last two of 960 overlap",
            Job::Write,
            MOST,
        )
    },
];

const fn done(what: &'static str, job: Job, count: usize) -> Kind {
    Kind {
        what,
        job,
        number: 0,
        count,
        change: |_| (),
    }
}

impl Kind {
    /// Structures of this kind, and their offsets.
    pub fn draw(&self, random: &mut Random) -> Draft {
        let mut draft = Draft::draw(random, self.count);
        (self.change)(&mut draft);
        draft
    }

    /// How many layouts are in a pass: few where they are long.
    pub const fn calls(&self) -> usize {
        if self.count < 96 { 64 } else { 8 }
    }

    /// Whether what is lent is left as the row's name says.
    pub fn is_as_named(&self, lent: &Lent, left: &Lent) -> bool {
        let planned = left.planned != lent.planned;
        let written = left.space != lent.space;
        let walked = left.listed != lent.listed;
        match self.job {
            _ if self.number != 0 => left == lent,
            Job::Plan => planned && !written && !walked,
            Job::Check => left == lent,
            Job::Write => written && !planned && !walked,
            Job::PlanWriteWalk => planned && written && left.listed == left.planned,
        }
    }
}
