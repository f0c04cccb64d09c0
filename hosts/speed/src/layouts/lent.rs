//! What is lent to be written.

use super::kind::MOST;
use crate::random::Random;

/// What the rooms are filled with before they are lent.
const UNUSED: u16 = 0xAAAA;

/// Room for the offsets of a plan, room for those of a walk, and a space.
#[derive(Clone, PartialEq, Eq)]
pub struct Lent {
    pub planned: Box<[u16]>,
    pub listed: Box<[u16]>,
    pub space: Box<[u8]>,
}

impl Lent {
    /// Room for as many offsets as there can be, and a space with any bytes.
    pub fn draw(random: &mut Random) -> Self {
        let room: Box<[u16]> = [UNUSED; MOST].into();
        Self {
            planned: room.clone(),
            listed: room,
            space: random.bytes(4096).into(),
        }
    }
}
