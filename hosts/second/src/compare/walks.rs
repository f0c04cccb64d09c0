//! Walks of one list: made, walked by the model and by the subject, compared and counted.

use thawribbon::raw::Walked;

use super::difference::Difference;
use super::reference::Reference;
use super::subject::Subject;
use crate::classes::{Group, Pointers, Tally, count_walk};
use crate::generate::{Random, SPACE_BYTES, Scene, Shape, WrongLengths};
use crate::model::List;
use crate::twin::Twin;

/// How far a room goes beyond the list's maximum at most.
const SPARE_ROOM: usize = 40;

/// How many pointers of a chain are told with a difference.
const MOST_POINTERS: usize = 24;

/// The walks of one list.
pub struct Walks {
    scene: Scene,
    room: Twin<u16>,
    space_lengths: WrongLengths,
}

impl Walks {
    pub fn new(shape: Shape) -> Self {
        let room = Twin::new(shape.maximum + SPARE_ROOM);
        Self {
            scene: Scene::spent(shape),
            room,
            space_lengths: WrongLengths::new(),
        }
    }

    /// One walk.
    pub fn walk(
        &mut self,
        subject: &mut impl Subject,
        random: &mut Random,
        tally: &mut Tally,
    ) -> Result<(), Box<Difference>> {
        let shape = self.scene.shape;
        let (space_length, room_length) = self.lengths(random);
        let sizes_are_right = space_length == SPACE_BYTES && room_length >= shape.maximum;
        self.scene.prepare(sizes_are_right, random);
        self.scene.space.lend(space_length);
        self.lend_room(room_length, random);
        let space = &mut self.scene.space;
        let ours = walk(shape.list, &mut Reference, space.ours(), self.room.ours_mut());
        let theirs = walk(shape.list, subject, space.theirs(), self.room.theirs_mut());
        if ours != theirs || !space.agrees() || !self.room.agrees() {
            return Err(Box::new(difference(shape, space, &self.room, ours, theirs)));
        }
        tally.add_if(self.scene.noise, Group::Noise, 2 + shape.place());
        count_walk(shape, self.scene.space.ours(), self.room.ours().len(), ours, tally);
        self.scene.undo();
        Ok(())
    }

    /// The lengths of the space and of the room, mostly right ones.
    fn lengths(&mut self, random: &mut Random) -> (usize, usize) {
        let maximum = self.scene.shape.maximum;
        let room = match random.weighted(&[50, 15, 25, 2, 5, 3]) {
            0 => maximum,
            1 => maximum + 1,
            2 => random.within(maximum + 2, maximum + SPARE_ROOM),
            3 => 0,
            4 => maximum - 1,
            _ => random.below(maximum),
        };
        let space = if random.percent(5) {
            self.space_lengths.draw(random)
        } else {
            SPACE_BYTES
        };
        (space, room)
    }

    /// Lends a room. None of its cells holds what a walk could write there, for that is a multiple of 4.
    fn lend_room(&mut self, length: usize, random: &mut Random) {
        let base = random.bits() as u16;
        self.room.refill(|cells| {
            for (place, cell) in cells.iter_mut().enumerate() {
                *cell = base.wrapping_add(2 * place as u16) | 1;
            }
        });
        self.room.lend(length);
    }
}

/// Tells of a walk whose two outcomes are not alike.
pub fn difference(shape: Shape, space: &Twin<u8>, room: &Twin<u16>, ours: Walked, theirs: Walked) -> Difference {
    let pointers = Pointers::new(shape, space.ours());
    let entry = match shape.list {
        List::Compatible => "walk_compatible",
        List::Extended => "walk_extended",
        List::Trusted => "walk_trusted",
    };
    Difference::new(entry, ours, theirs)
        .input("length of the room", room.ours().len())
        .input(
            "pointers from the start on",
            pointers
                .map(|pointers| pointers.first(MOST_POINTERS))
                .unwrap_or_default(),
        )
        .words("words 004h, 034h and 100h", space.ours(), &[0x004, 0x034, 0x100])
        .space("space", space.ours())
        .look("space", space)
        .look("room", room)
}

/// Walks a list of a subject.
pub fn walk(list: List, subject: &mut impl Subject, space: &[u8], room: &mut [u16]) -> Walked {
    match list {
        List::Compatible => subject.walk_compatible(space, room),
        List::Extended => subject.walk_extended(space, room),
        List::Trusted => subject.walk_trusted(space, room),
    }
}
