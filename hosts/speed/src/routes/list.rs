//! Lists of ports: ranges of two buses or more that lie apart, in random order.

use crate::random::Random;
use crate::raw;
use second::model;

/// A port's range, and whether it supports TCS routing.
#[derive(Clone, Copy)]
pub struct Range {
    pub secondary: u8,
    pub subordinate: u8,
    pub tcs: bool,
}

impl Range {
    pub fn has(&self, bus: u8) -> bool {
        (self.secondary..=self.subordinate).contains(&bus)
    }

    pub fn for_library(&self) -> raw::Port {
        let Self {
            secondary,
            subordinate,
            tcs,
        } = *self;
        raw::Port {
            secondary,
            subordinate,
            tcs,
        }
    }

    pub fn for_safe_rust(&self) -> model::Port {
        let Self {
            secondary,
            subordinate,
            tcs,
        } = *self;
        model::Port {
            secondary,
            subordinate,
            tcs,
        }
    }
}

/// A good list of so many ports, all with TCS routing.
pub fn good(random: &mut Random, ports: usize) -> Vec<Range> {
    let mut buses: Vec<u8> = (0..=255).collect();
    random.shuffle(&mut buses);
    buses.truncate(2 * ports);
    buses.sort_unstable();
    let mut ranges: Vec<Range> = buses
        .chunks_exact(2)
        .map(|ends| Range {
            secondary: ends[0],
            subordinate: ends[1],
            tcs: true,
        })
        .collect();
    random.shuffle(&mut ranges);
    ranges
}

/// A list that is good but for its last two ports: the last one's range is the last bus of the one before.
pub fn whose_last_pair_meets(random: &mut Random, ports: usize) -> Vec<Range> {
    let mut ranges = good(random, ports);
    if let [.., before, last] = &mut ranges[..] {
        (last.secondary, last.subordinate) = (before.subordinate, before.subordinate);
    }
    ranges
}
