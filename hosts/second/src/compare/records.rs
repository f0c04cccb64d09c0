//! Questions for the two records: made, answered by the model and by the subject, compared and counted.

use std::fmt::Debug;

use super::difference::Difference;
use super::reference::Reference;
use super::subject::Subject;
use crate::classes::{Group, Question, Tally, count_dual, count_dvsec};
use crate::generate::{DualMaker, DvsecMaker, Random, RecordScene};

/// What a comparison answers.
type Compared = Result<(), Box<Difference>>;

/// A space with records in it, and the makers of calls for each question.
pub struct Records {
    scene: RecordScene,
    fields: DvsecMaker,
    bodies: DvsecMaker,
    duals: DualMaker,
}

impl Records {
    pub fn new() -> Self {
        Self {
            scene: RecordScene::spent(),
            fields: DvsecMaker::new(),
            bodies: DvsecMaker::new(),
            duals: DualMaker::new(),
        }
    }

    /// One question for the fields of a DVSEC record.
    pub fn dvsec(&mut self, subject: &mut impl Subject, random: &mut Random, tally: &mut Tally) -> Compared {
        self.fields.prepare(&mut self.scene, random);
        let (space, at) = (&self.scene.space, self.scene.at);
        let ours = Reference.dvsec(space.ours(), at);
        let theirs = subject.dvsec(space.theirs(), at);
        self.compare("dvsec", ours, theirs)?;
        tally.add_if(self.scene.noise, Group::Noise, 5);
        count_dvsec(self.scene.space.ours(), at, Question::Fields, ours.number, tally);
        Ok(())
    }

    /// One question for the body of a DVSEC record. Its number is what the model gives to the first question.
    pub fn dvsec_body(&mut self, subject: &mut impl Subject, random: &mut Random, tally: &mut Tally) -> Compared {
        self.bodies.prepare(&mut self.scene, random);
        let (space, at) = (&self.scene.space, self.scene.at);
        let ours = Reference.dvsec_body(space.ours(), at);
        let theirs = subject.dvsec_body(space.theirs(), at);
        self.compare("dvsec_body", ours, theirs)?;
        tally.add_if(self.scene.noise, Group::Noise, 6);
        let number = Reference.dvsec(self.scene.space.ours(), at).number;
        count_dvsec(self.scene.space.ours(), at, Question::Body, number, tally);
        Ok(())
    }

    /// One question for a Dual-BDF record.
    pub fn dual_bdf(&mut self, subject: &mut impl Subject, random: &mut Random, tally: &mut Tally) -> Compared {
        self.duals.prepare(&mut self.scene, random);
        let (space, at) = (&self.scene.space, self.scene.at);
        let ours = Reference.dual_bdf(space.ours(), at);
        let theirs = subject.dual_bdf(space.theirs(), at);
        self.compare("dual_bdf", ours, theirs)?;
        tally.add_if(self.scene.noise, Group::Noise, 7);
        count_dual(self.scene.space.ours(), at, ours.number, tally);
        Ok(())
    }

    /// Compares two answers and all bytes of the space.
    fn compare<Answer: Copy + PartialEq + Debug>(&self, entry: &'static str, ours: Answer, theirs: Answer) -> Compared {
        let (space, at) = (&self.scene.space, self.scene.at);
        if ours == theirs && space.agrees() {
            return Ok(());
        }
        let words = [0, 4, 8].map(|place| at.saturating_add(place) & !3);
        Err(Box::new(
            Difference::new(entry, ours, theirs)
                .input("at", at)
                .words("words at the offset", space.ours(), &words)
                .space("space", space.ours())
                .look("space", space),
        ))
    }
}
