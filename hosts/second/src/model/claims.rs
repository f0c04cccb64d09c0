//! A map of a space: which structure has each of its bytes.

use super::space::SPACE_BYTES;
use super::structures::Structure;

/// Stands for no structure: there is none at this place of any list.
const NOBODY: u16 = u16::MAX;

/// The structure, by its place in the list, that has each byte of a space. A byte has one owner at most.
pub(super) struct Claims {
    owners: [u16; SPACE_BYTES],
}

impl Claims {
    /// No byte has an owner.
    pub(super) const fn none() -> Self {
        Self {
            owners: [NOBODY; SPACE_BYTES],
        }
    }

    /// Gives a structure's bytes from an offset on to it. Where one of them is not in the space, or has an owner, nothing
    /// is given, and the answer is false.
    pub(super) fn claim(&mut self, place: usize, structure: &Structure, offset: usize) -> bool {
        let bytes = self.owners.get_mut(offset..offset + usize::from(structure.length));
        match bytes {
            Some(bytes) if bytes.iter().all(|&owner| owner == NOBODY) => {
                bytes.fill(place as u16);
                true
            }
            _ => false,
        }
    }

    /// Whether no byte of the word at an offset has an owner.
    pub(super) fn is_free(&self, offset: usize) -> bool {
        self.owners[offset..offset + 4] == [NOBODY; 4]
    }

    /// The owners from the lowest byte up, each told where its bytes begin.
    pub(super) fn upwards(&self) -> impl Iterator<Item = usize> {
        let runs = self.owners.chunk_by(|one, next| one == next).map(|run| run[0]);
        runs.filter(|&owner| owner != NOBODY).map(usize::from)
    }
}
