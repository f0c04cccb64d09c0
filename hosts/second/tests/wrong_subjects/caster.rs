//! What the wrong ways to judge an address are made of.

use second::compare::{Reference, Subject};
use thawribbon::raw::{Groups, Judged};

use crate::harness::{Wrong, expect_caught};

/// What is told of an address that is refused.
pub const REFUSED: Judged = Judged {
    ports: 0,
    number: 1,
    verdict: 0,
    group: 0,
};
/// What is told where there is no hit.
pub const NO_HIT: Judged = Judged {
    ports: 0,
    number: 0,
    verdict: 1,
    group: 0,
};
pub const DROPPED: u8 = 2;
pub const LEAVES: u8 = 3;

/// A list, the port that is entered by, and the address.
#[derive(Clone, Copy)]
pub struct Call<'lent> {
    pub ports: &'lent [Groups],
    pub entering: usize,
    pub address: u64,
}

impl Call<'_> {
    /// The record of the port that is entered by.
    pub fn entered(&self) -> &Groups {
        &self.ports[self.entering]
    }
}

/// A judge by habits, one of which may be wrong. Of a port it is told by its place, and of the group by its number.
#[derive(Clone, Copy)]
pub struct Habits {
    pub is_length: fn(usize) -> bool,
    pub is_given: fn(&Groups) -> bool,
    pub group: fn(&Call<'_>) -> Option<u64>,
    pub is_dropped: fn(&Call<'_>, u64) -> bool,
    pub is_left_by: fn(&Call<'_>, usize, u64) -> bool,
}

pub const RIGHT: Habits = Habits {
    is_length: |length| length <= 32,
    is_given,
    group: |call| group(call.entered(), call.address),
    is_dropped: |call, group| has(call.entered().block_all, group),
    is_left_by: |call, place, group| place != call.entering && has(call.ports[place].receive, group),
};

/// Whether a register has the bit of a group. It has none for a group over 63, which a wrong judge may find.
pub fn has(register: u64, group: u64) -> bool {
    register.checked_shr(group as u32).is_some_and(|rest| rest & 1 == 1)
}

/// Whether some space gives a record.
pub const fn is_given(record: &Groups) -> bool {
    record.max_group < 64
        && record.num_group <= record.max_group
        && record.index < 64
        && record.base & 0xFFF == 0
        && (record.enable == 0 || record.enable == 1 && record.index >= 12)
}

/// The group of a record that an address hits. An index over 63, which a wrong judge may let through, has one group.
pub fn group(record: &Groups, address: u64) -> Option<u64> {
    if record.enable == 0 || address < record.base {
        return None;
    }
    let distance = address - record.base;
    up_to(distance.checked_shr(record.index as u32).unwrap_or(0), record.num_group)
}

/// A number that is not over a bound.
pub const fn up_to(number: u64, bound: u64) -> Option<u64> {
    if number <= bound { Some(number) } else { None }
}

/// Whether the port that is entered by is enabled and the address is not below its base.
pub fn is_from_the_base_on(call: &Call<'_>) -> bool {
    call.entered().enable == 1 && call.address >= call.entered().base
}

/// What the port that is entered by makes of a group.
pub fn told(call: &Call<'_>, group: Option<u64>) -> Judged {
    let Some(group) = group else {
        return NO_HIT;
    };
    let is_dropped = (RIGHT.is_dropped)(call, group);
    let places = (0..call.ports.len()).filter(|&place| !is_dropped && (RIGHT.is_left_by)(call, place, group));
    Judged {
        number: 0,
        verdict: if is_dropped { DROPPED } else { LEAVES },
        group: group as u8,
        ports: places.fold(0, |set, place| set | 1 << place),
    }
}

/// Judges by habits.
pub fn judged_by(habits: Habits) -> Wrong {
    Wrong::judge(move |ports, entering, address| {
        let call = Call {
            ports,
            entering,
            address,
        };
        let is_good = (habits.is_length)(ports.len()) && entering < ports.len() && ports.iter().all(habits.is_given);
        if !is_good {
            return REFUSED;
        }
        let Some(group) = (habits.group)(&call) else {
            return NO_HIT;
        };
        let told = Judged {
            group: group as u8,
            verdict: DROPPED,
            ..NO_HIT
        };
        if (habits.is_dropped)(&call, group) {
            return told;
        }
        let places = (0..ports.len().min(32)).filter(|&place| (habits.is_left_by)(&call, place, group));
        Judged {
            verdict: LEAVES,
            ports: places.fold(0, |set, place| set | 1 << place),
            ..told
        }
    })
}

/// Judges where the answer is the model's unless something else is put in its place.
pub fn or_else(other: impl Fn(&Call<'_>, Judged) -> Option<Judged> + 'static) -> Wrong {
    Wrong::judge(move |ports, entering, address| {
        let judged = Reference.judge(ports, entering, address);
        let call = Call {
            ports,
            entering,
            address,
        };
        other(&call, judged).unwrap_or(judged)
    })
}

/// Judges where what is told of an address with a verdict is changed.
pub fn with_told(verdict: u8, change: impl Fn(&Call<'_>, Judged) -> Judged + 'static) -> Wrong {
    or_else(move |call, judged| (judged.verdict == verdict).then(|| change(call, judged)))
}

/// Judges where the records are changed first.
pub fn with_records(change: impl Fn(&Call<'_>, usize, Groups) -> Groups + 'static) -> Wrong {
    Wrong::judge(move |ports, entering, address| {
        let call = Call {
            ports,
            entering,
            address,
        };
        let places = ports.iter().enumerate();
        let changed: Vec<Groups> = places.map(|(place, &record)| change(&call, place, record)).collect();
        Reference.judge(&changed, entering, address)
    })
}

/// A record as it would be cut to its fields and made one that some space gives.
pub fn mended(record: Groups) -> Groups {
    let max_group = record.max_group & 63;
    let enable = record.enable & 1;
    let index = record.index & 63;
    Groups {
        max_group,
        num_group: (record.num_group & 63).min(max_group),
        enable,
        index: if enable == 1 { index.max(12) } else { index },
        base: record.base & !0xFFF,
        ..record
    }
}

/// What becomes of the packet while all records are mended.
pub fn otherwise(call: &Call<'_>) -> Judged {
    let ports: Vec<Groups> = call.ports.iter().map(|&record| mended(record)).collect();
    Reference.judge(&ports, call.entering, call.address)
}

/// Fails unless a judge is caught.
pub fn expect_judge_caught(subject: Wrong) {
    expect_caught(subject, "judge");
}

/// Fails unless a judge is caught that finds groups in another way.
pub fn expect_group_caught(group: fn(&Call<'_>) -> Option<u64>) {
    expect_judge_caught(judged_by(Habits { group, ..RIGHT }));
}

/// Fails unless a judge is caught that drops in another way.
pub fn expect_drop_caught(is_dropped: fn(&Call<'_>, u64) -> bool) {
    expect_judge_caught(judged_by(Habits { is_dropped, ..RIGHT }));
}

/// Fails unless a judge is caught that finds the ports in another way.
pub fn expect_leaving_caught(is_left_by: fn(&Call<'_>, usize, u64) -> bool) {
    expect_judge_caught(judged_by(Habits { is_left_by, ..RIGHT }));
}
