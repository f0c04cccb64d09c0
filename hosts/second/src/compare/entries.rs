//! All calls but those of boards of two functions and of packets that come again: each entry, and what goes through several.

use super::asks::Asks;
use super::circles::Circles;
use super::difference::Difference;
use super::drafts::Drafts;
use super::halves::Halves;
use super::judges::Judges;
use super::layouts::Layouts;
use super::multicasts::Multicasts;
use super::onwards::Onwards;
use super::packets::Packets;
use super::pairs::Pairs;
use super::records::Records;
use super::routes::Routes;
use super::subject::Subject;
use super::walks::Walks;
use crate::classes::Tally;
use crate::generate::{Random, SHAPES};

/// How often each entry is called: serve, reset, the three walks, dvsec, dvsec_body, dual_bdf, route, write_request,
/// read_completion. Then how often a circle is gone through. Then multicast and judge. Then how often a pair and a half of
/// demand 3 go a step on, and a packet goes through a router to a board. Then plan_layout, check_layout and write_layout,
/// and how often a layout goes through all of them.
const WEIGHTS: [usize; 21] = [100, 3, 8, 12, 12, 6, 3, 5, 30, 11, 13, 6, 10, 23, 7, 9, 4, 8, 10, 9, 3];

/// The makers of all these calls.
pub struct Entries {
    packets: Packets,
    walks: [Walks; 3],
    records: Records,
    routes: Routes,
    asks: Asks,
    circles: Circles,
    multicasts: Multicasts,
    judges: Judges,
    pairs: Pairs,
    halves: Halves,
    onwards: Onwards,
    layouts: Layouts,
    drafts: Drafts,
}

impl Entries {
    pub fn new() -> Self {
        Self {
            packets: Packets::new(),
            walks: SHAPES.map(Walks::new),
            records: Records::new(),
            routes: Routes::new(),
            asks: Asks::new(),
            circles: Circles::new(),
            multicasts: Multicasts::new(),
            judges: Judges::new(),
            pairs: Pairs::new(),
            halves: Halves::new(),
            onwards: Onwards::new(),
            layouts: Layouts::new(),
            drafts: Drafts::new(),
        }
    }

    /// One call, of any of them.
    pub fn call(
        &mut self,
        subject: &mut impl Subject,
        random: &mut Random,
        tally: &mut Tally,
    ) -> Result<(), Box<Difference>> {
        match random.weighted(&WEIGHTS) {
            0 => self.packets.serve(subject, random, tally),
            1 => self.packets.reset(subject, random, tally),
            list @ 2..=4 => self.walks[list - 2].walk(subject, random, tally),
            5 => self.records.dvsec(subject, random, tally),
            6 => self.records.dvsec_body(subject, random, tally),
            7 => self.records.dual_bdf(subject, random, tally),
            8 => self.routes.route(subject, random, tally),
            9 => self.asks.write(subject, random, tally),
            10 => self.asks.read(subject, random, tally),
            11 => self.circles.circle(subject, random, tally),
            12 => self.multicasts.multicast(subject, random, tally),
            13 => self.judges.judge(subject, random, tally),
            14 => self.pairs.step(subject, random, tally),
            15 => self.halves.step(subject, random, tally),
            16 => self.onwards.onward(subject, random, tally),
            17 => self.layouts.plan(subject, random, tally),
            18 => self.layouts.check(subject, random, tally),
            19 => self.layouts.write(subject, random, tally),
            _ => self.drafts.draft(subject, random, tally),
        }
    }
}
