//! Causes of 1 that two boards side by side may both have, whatever their editions.

use thawribbon::raw::{Capture, Description};

use super::random::Random;

/// A function number, a place or a captured device outside its range.
#[derive(Clone, Copy)]
pub enum BoardFault {
    Function,
    A,
    B,
    Device,
}

impl BoardFault {
    /// One of them, now and then.
    pub fn draw(random: &mut Random) -> Option<Self> {
        let one = random.pick(&[Self::Function, Self::A, Self::B, Self::Device]);
        random.percent(5).then_some(one)
    }

    /// A description with the fault.
    pub const fn description(self, right: Description) -> Description {
        let mut description = right;
        match self {
            Self::Function => description.function |= 8,
            Self::A => description.a = 0x100,
            Self::B => description.b |= 1,
            Self::Device => {}
        }
        description
    }

    /// A capture with the fault.
    pub const fn kept(self, right: Capture) -> Capture {
        match self {
            Self::Device => Capture {
                captured: right.captured | 1,
                bus: right.bus,
                device: right.device | 32,
            },
            _ => right,
        }
    }
}
