//! Layouts from the structures to the list: planned, checked, written and walked, in one space and one after another.
//! Each step is done by the model and by the subject and compared, and what the steps came to is held against one another.

use thawribbon::raw::Structure;

use super::difference::Difference;
use super::planning::{Desk, list};
use super::subject::Subject;
use crate::classes::{DraftView, Lists, Tally, count_draft};
use crate::generate::{LayoutSpace, MOST_STRUCTURES, Random, SHAPES, acceptable, crowded, fitting, lowest, some_count};
use crate::twin::Twin;

/// The room of the two walks.
const COMPATIBLE_ROOM: usize = 48;

/// What is lent for all steps.
pub struct Drafts {
    desk: Desk,
    space: LayoutSpace,
    extended: Twin<u16>,
    compatible: Twin<u16>,
}

impl Drafts {
    pub fn new() -> Self {
        Self {
            desk: Desk::new(),
            space: LayoutSpace::spent(),
            extended: Twin::new(MOST_STRUCTURES),
            compatible: Twin::new(COMPATIBLE_ROOM),
        }
    }

    /// One draft: a call of `plan_layout`, one of `check_layout`, one of `write_layout`, and walks of both lists before
    /// and after.
    pub fn draft(
        &mut self,
        subject: &mut impl Subject,
        random: &mut Random,
        tally: &mut Tally,
    ) -> Result<(), Box<Difference>> {
        let structures = structures(random);
        self.space.begin(random);
        let before = self.lists(subject)?;
        self.desk.begin(&structures, random);
        self.desk.lend_room(structures.len(), random);
        let planned = self.desk.plan(subject)?;
        let plan = self.desk.offsets.lent().ours().to_vec();
        let offsets = proposal(&structures, planned, &plan, random);
        self.desk.offsets.lend_cells(&offsets);
        let checked = self.desk.check(subject)?;
        let written = self.desk.write(&mut self.space.space, subject)?;
        let after = self.lists(subject)?;
        let view = DraftView {
            structures: &structures,
            plan: &plan,
            offsets: &offsets,
            numbers: [planned, checked, written],
            lists: [before, after],
            spaces: [self.space.space.before(), self.space.space.ours()],
        };
        count_draft(&view, tally);
        Ok(())
    }

    /// What the walks list now.
    fn lists(&mut self, subject: &mut impl Subject) -> Result<Lists, Box<Difference>> {
        let space = &self.space.space;
        let [compatible, extended, _] = SHAPES;
        Ok(Lists {
            extended: list(extended, space, &mut self.extended, subject)?,
            compatible: list(compatible, space, &mut self.compatible, subject)?,
        })
    }
}

/// Sound structures, mostly such as have a layout.
fn structures(random: &mut Random) -> Vec<Structure> {
    let count = some_count(1, MOST_STRUCTURES, random);
    if random.percent(88) || count == 1 {
        fitting(count, random)
    } else {
        crowded(count, random)
    }
}

/// What is checked and written: the plan itself, another proposal that is accepted, or one that is not. Where there is no
/// plan, what would be one if the space went on.
fn proposal(structures: &[Structure], planned: u8, plan: &[u16], random: &mut Random) -> Vec<u16> {
    if planned != 0 {
        return lowest(structures);
    }
    let mut offsets = match random.percent(50) {
        true => plan.to_vec(),
        false => acceptable(structures, random),
    };
    if random.percent(12) {
        let place = random.below(offsets.len());
        offsets[place] = offsets[place].wrapping_add(random.pick(&[1, 2, 4, 0xFFFC, 0x1000]));
    }
    offsets
}
