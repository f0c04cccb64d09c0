//! Layouts to be planned, checked and written, one by one: made, put to the model and to the subject, compared and
//! counted.

use super::difference::Difference;
use super::planning::Desk;
use super::subject::Subject;
use crate::classes::{Group, LayoutView, PlanView, Tally, WriteView, count_check, count_plan, count_write};
use crate::generate::{LayoutCase, LayoutMaker, LayoutSpace, PlanMaker, Random};

/// What a comparison answers.
type Compared = Result<(), Box<Difference>>;

/// The makers of calls, and what is lent with them.
pub struct Layouts {
    desk: Desk,
    plans: PlanMaker,
    checks: LayoutMaker,
    writes: LayoutMaker,
    space: LayoutSpace,
    last_written: LayoutCase,
}

impl Layouts {
    pub fn new() -> Self {
        Self {
            desk: Desk::new(),
            plans: PlanMaker::new(),
            checks: LayoutMaker::new(),
            writes: LayoutMaker::new(),
            space: LayoutSpace::spent(),
            last_written: LayoutCase {
                structures: Vec::new(),
                offsets: Vec::new(),
            },
        }
    }

    /// One call of `plan_layout`.
    pub fn plan(&mut self, subject: &mut impl Subject, random: &mut Random, tally: &mut Tally) -> Compared {
        let is_noise = random.percent(4);
        let case = if is_noise {
            PlanMaker::noise(random)
        } else {
            self.plans.case(random)
        };
        self.desk.begin(&case.structures, random);
        self.desk.lend_room(case.room, random);
        let number = self.desk.plan(subject)?;
        tally.add_if(is_noise, Group::Noise, 13);
        let room = self.desk.offsets.lent();
        let view = PlanView {
            structures: &case.structures,
            before: room.before(),
            room: room.ours(),
            number,
        };
        count_plan(&view, tally);
        Ok(())
    }

    /// One call of `check_layout`.
    pub fn check(&mut self, subject: &mut impl Subject, random: &mut Random, tally: &mut Tally) -> Compared {
        let is_noise = random.percent(4);
        let case = if is_noise {
            LayoutMaker::noise(random)
        } else {
            self.checks.case(true, random)
        };
        self.desk.begin(&case.structures, random);
        self.desk.offsets.lend_cells(&case.offsets);
        let number = self.desk.check(subject)?;
        tally.add_if(is_noise, Group::Noise, 14);
        let view = LayoutView {
            structures: &case.structures,
            offsets: &case.offsets,
            number,
        };
        count_check(&view, tally);
        Ok(())
    }

    /// One call of `write_layout`, mostly into a space that earlier ones were written into.
    pub fn write(&mut self, subject: &mut impl Subject, random: &mut Random, tally: &mut Tally) -> Compared {
        let is_noise = random.percent(4);
        let is_wrong_length = random.percent(8);
        if is_noise {
            self.last_written = LayoutMaker::noise(random);
        } else if random.percent(96) {
            self.last_written = self.writes.case(!is_wrong_length, random);
        }
        self.space.begin(random);
        if is_wrong_length {
            self.space.lend_wrong_length(random);
        }
        let LayoutCase { structures, offsets } = &self.last_written;
        self.desk.begin(structures, random);
        self.desk.offsets.lend_cells(offsets);
        let space = &mut self.space.space;
        let number = self.desk.write(space, subject)?;
        tally.add_if(is_noise, Group::Noise, 15);
        let view = WriteView {
            layout: LayoutView {
                structures,
                offsets,
                number,
            },
            before: space.before(),
            space: space.ours(),
        };
        count_write(&view, tally);
        Ok(())
    }
}
