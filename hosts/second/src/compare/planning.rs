//! The steps of a layout: each done by the model and by the subject on what is lent, and compared.

use thawribbon::raw::{Structure, Walked};

use super::difference::Difference;
use super::reference::Reference;
use super::subject::Subject;
use super::walks::{difference, walk};
use crate::generate::{FAR, NEAR_ROOM, NEAR_STRUCTURES, Random, Shape, sound_structure};
use crate::reach::Reach;
use crate::twin::Twin;

/// What a step answers: its number, or a difference.
type Answered = Result<u8, Box<Difference>>;

/// How many calls go by before what lies around the lists is made anew.
const CALLS_OF_A_LIFE: usize = 100;

/// What is lent for a layout, but for the space: structures, and offsets, read or written.
pub struct Desk {
    pub structures: Reach<Structure>,
    pub offsets: Reach<u16>,
    calls_left: usize,
}

impl Desk {
    pub fn new() -> Self {
        let nothing = Structure {
            id: 0,
            version: 0,
            length: 0,
        };
        Self {
            structures: Reach::of(nothing, NEAR_STRUCTURES, FAR),
            offsets: Reach::of(0, NEAR_ROOM, FAR),
            calls_left: 0,
        }
    }

    /// Begins a call with these structures. Now and then, they begin elsewhere and have others around them. Those are
    /// sound, so that one who goes beyond the list finds structures there.
    pub fn begin(&mut self, structures: &[Structure], random: &mut Random) {
        self.structures.lend(structures.len());
        if self.calls_left == 0 {
            self.calls_left = CALLS_OF_A_LIFE;
            self.structures.shift(random.below(8));
            self.offsets.shift(random.below(8));
            let around = self.structures.lent_mut();
            around.refill(|cells| cells.fill_with(|| sound_structure(1, random)));
        }
        self.calls_left -= 1;
        self.structures.lend_cells(structures);
    }

    /// Lends a room of so many places. None of them holds what could be proposed, for that is a multiple of 4.
    pub fn lend_room(&mut self, places: usize, random: &mut Random) {
        let base = random.bits() as u16;
        self.offsets.lend(places);
        let room = self.offsets.lent_mut();
        room.refill(|cells| {
            for (place, cell) in cells.iter_mut().enumerate() {
                *cell = base.wrapping_add((2 * place) as u16) | 1;
            }
        });
        room.remember();
    }

    /// Has offsets planned.
    pub fn plan(&mut self, subject: &mut impl Subject) -> Answered {
        let (structures, room) = (self.structures.lent(), self.offsets.lent_mut());
        let ours = Reference.plan_layout(structures.ours(), room.ours_mut());
        let theirs = subject.plan_layout(structures.theirs(), room.theirs_mut());
        self.answer("plan_layout", ours, theirs, None)
    }

    /// Has the offsets checked.
    pub fn check(&self, subject: &mut impl Subject) -> Answered {
        let (structures, offsets) = (self.structures.lent(), self.offsets.lent());
        let ours = Reference.check_layout(structures.ours(), offsets.ours());
        let theirs = subject.check_layout(structures.theirs(), offsets.theirs());
        self.answer("check_layout", ours, theirs, None)
    }

    /// Has the headers written into a space.
    pub fn write(&self, space: &mut Twin<u8>, subject: &mut impl Subject) -> Answered {
        let (structures, offsets) = (self.structures.lent(), self.offsets.lent());
        let ours = Reference.write_layout(structures.ours(), offsets.ours(), space.ours_mut());
        let theirs = subject.write_layout(structures.theirs(), offsets.theirs(), space.theirs_mut());
        self.answer("write_layout", ours, theirs, Some(space))
    }

    /// The number, if all that was lent is alike.
    fn answer(&self, entry: &'static str, ours: u8, theirs: u8, space: Option<&Twin<u8>>) -> Answered {
        let (structures, offsets) = (self.structures.lent(), self.offsets.lent());
        let lent_agrees = structures.agrees() && offsets.agrees();
        if ours == theirs && lent_agrees && space.is_none_or(Twin::agrees) {
            return Ok(ours);
        }
        let difference = Difference::new(entry, ours, theirs)
            .structures("structures (ID version length)", structures.ours())
            .offsets("offsets of the model", offsets.ours())
            .offsets("offsets of the subject", offsets.theirs())
            .look("structures", structures)
            .look("offsets", offsets);
        Err(Box::new(match space {
            None => difference,
            Some(space) => difference.space("space as lent", space.before()).look("space", space),
        }))
    }
}

/// Walks a list of a space, and answers what the model lists.
pub fn list(
    shape: Shape,
    space: &Twin<u8>,
    room: &mut Twin<u16>,
    subject: &mut impl Subject,
) -> Result<(Walked, Vec<u16>), Box<Difference>> {
    let ours = walk(shape.list, &mut Reference, space.ours(), room.ours_mut());
    let theirs = walk(shape.list, subject, space.theirs(), room.theirs_mut());
    if ours == theirs && space.agrees() && room.agrees() {
        return Ok((ours, room.ours()[..ours.count].to_vec()));
    }
    Err(Box::new(difference(shape, space, room, ours, theirs)))
}
