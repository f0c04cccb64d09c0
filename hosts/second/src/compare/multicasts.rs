//! Questions for the Multicast capability: made, answered by the model and by the subject, compared and counted.

use thawribbon::raw::Groups;

use super::difference::Difference;
use super::reference::Reference;
use super::subject::Subject;
use crate::classes::{Group, Tally, count_multicast};
use crate::generate::{MulticastMaker, Random, RecordScene, any_groups};
use crate::twin::Twin;

/// How many calls go by before what lies around the numbers is made anew.
const CALLS_OF_A_LIFE: usize = 100;

/// A space with capabilities in it, the maker of calls, and the numbers that are lent to be written.
pub struct Multicasts {
    scene: RecordScene,
    maker: MulticastMaker,
    groups: Twin<Groups>,
    calls_left: usize,
}

impl Multicasts {
    pub fn new() -> Self {
        Self {
            scene: RecordScene::spent(),
            maker: MulticastMaker::new(),
            groups: Twin::of(Groups::ZEROS, 1),
            calls_left: 0,
        }
    }

    /// One call of `multicast`.
    pub fn multicast(
        &mut self,
        subject: &mut impl Subject,
        random: &mut Random,
        tally: &mut Tally,
    ) -> Result<(), Box<Difference>> {
        self.maker.prepare(&mut self.scene, random);
        self.lend(random);
        let (space, at) = (&self.scene.space, self.scene.at);
        let ours = Reference.multicast(space.ours(), at, &mut self.groups.ours_mut()[0]);
        let theirs = subject.multicast(space.theirs(), at, &mut self.groups.theirs_mut()[0]);
        if ours != theirs || !space.agrees() || !self.groups.agrees() {
            return Err(Box::new(self.difference(ours, theirs)));
        }
        tally.add_if(self.scene.noise, Group::Noise, 11);
        count_multicast(space.ours(), at, ours, &self.groups.ours()[0], tally);
        Ok(())
    }

    /// Lends numbers that are all random. Now and then, so are those that lie around them, and they begin elsewhere.
    fn lend(&mut self, random: &mut Random) {
        if self.calls_left == 0 {
            self.calls_left = CALLS_OF_A_LIFE;
            self.groups.shift(random.below(8));
            self.groups.refill(|cells| cells.fill_with(|| any_groups(random)));
        }
        self.calls_left -= 1;
        self.groups.set(0, &[any_groups(random)]);
        self.groups.remember();
    }

    fn difference(&self, ours: u8, theirs: u8) -> Difference {
        let (space, at) = (&self.scene.space, self.scene.at);
        let places = [0x00, 0x04, 0x08, 0x0C, 0x10, 0x14, 0x18, 0x1C];
        let words = places.map(|place| at.saturating_add(place) & !3);
        let [before, of_ours, of_theirs] = [self.groups.before(), self.groups.ours(), self.groups.theirs()];
        Difference::new("multicast", ours, theirs)
            .input("at", at)
            .words("words at the offset", space.ours(), &words)
            .space("space", space.ours())
            .records("as lent", before)
            .records("of the model", of_ours)
            .records("of the subject", of_theirs)
            .look("space", space)
            .look("numbers", &self.groups)
    }
}
