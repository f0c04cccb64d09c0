//! Addresses to be judged by the records of ports: made, judged by the model and by the subject, compared and counted.

use thawribbon::raw::{Groups, Judged};

use super::difference::Difference;
use super::reference::Reference;
use super::subject::Subject;
use crate::classes::{Group, JudgeView, Tally, count_judge};
use crate::generate::{JudgeCase, JudgeMaker, LONGEST_RECORDS, Random, sound_groups};
use crate::twin::Twin;

/// How many calls go by before what lies around the list is made anew.
const CALLS_OF_A_LIFE: usize = 100;

/// The maker of calls, and the list that is lent with them.
pub struct Judges {
    maker: JudgeMaker,
    ports: Twin<Groups>,
    calls_left: usize,
}

impl Judges {
    pub fn new() -> Self {
        Self {
            maker: JudgeMaker::new(),
            ports: Twin::of(Groups::ZEROS, LONGEST_RECORDS),
            calls_left: 0,
        }
    }

    /// One call of `judge`.
    pub fn judge(
        &mut self,
        subject: &mut impl Subject,
        random: &mut Random,
        tally: &mut Tally,
    ) -> Result<(), Box<Difference>> {
        self.live(random);
        let is_noise = random.percent(4);
        let case = if is_noise {
            JudgeMaker::noise(random)
        } else {
            self.maker.case(random)
        };
        self.ports.set(0, &case.ports);
        self.ports.lend(case.ports.len());
        let ours = Reference.judge(self.ports.ours(), case.entering, case.address);
        let theirs = subject.judge(self.ports.theirs(), case.entering, case.address);
        if ours != theirs || !self.ports.agrees() {
            return Err(Box::new(self.difference(&case, ours, theirs)));
        }
        tally.add_if(is_noise, Group::Noise, 12);
        let view = JudgeView {
            case: &case,
            judged: ours,
        };
        count_judge(&view, tally);
        Ok(())
    }

    /// Now and then, gives the list another start and other margins. What lies around it are sound records, so that one
    /// who goes beyond it finds ports there.
    fn live(&mut self, random: &mut Random) {
        if self.calls_left == 0 {
            self.calls_left = CALLS_OF_A_LIFE;
            self.ports.shift(random.below(8));
            self.ports.refill(|cells| cells.fill_with(|| sound_groups(random)));
        }
        self.calls_left -= 1;
    }

    fn difference(&self, case: &JudgeCase, ours: Judged, theirs: Judged) -> Difference {
        Difference::new("judge", ours, theirs)
            .input("address", case.address)
            .input("entering", case.entering)
            .records(
                "list (max_group num_group enable index base receive block_all)",
                self.ports.ours(),
            )
            .look("list", &self.ports)
    }
}
