//! The kinds of walks that are timed, one for each row.

use super::chain::{self, List, Order};
use super::sides::Answer;
use crate::random::Random;

/// A list, the chain in it, the bytes of its space and the room that is lent, and the number and the count that every
/// walk must answer. Where a list broke, the sides must tell alike: it differs from space to space.
pub struct Kind {
    pub what: &'static str,
    pub list: List,
    pub room: usize,
    number: u8,
    count: usize,
    space: usize,
    chain: Chain,
}

/// How the pointers of a list go.
#[derive(Clone, Copy)]
enum Chain {
    /// Through so many headers to the end.
    Legal(usize, Order),
    /// Through so many headers and below the floor.
    Falling(usize, Order),
    /// Through so many headers and back to the first.
    Round(usize, Order),
    /// Through some headers and then round a loop of some others, in random order.
    TailAndLoop,
}

pub const KINDS: [Kind; 28] = [
    legal("walk, compatible, 1", List::Compatible, 1, Order::Random),
    legal("walk, compatible, 8, random order", List::Compatible, 8, Order::Random),
    legal(
        "walk, compatible, 48, memory order",
        List::Compatible,
        48,
        Order::Memory,
    ),
    legal(
        "walk, compatible, 48, random order",
        List::Compatible,
        48,
        Order::Random,
    ),
    legal("walk, extended, 1", List::Extended, 1, Order::Memory),
    legal("walk, extended, 12, random order", List::Extended, 12, Order::Random),
    legal("walk, extended, 48, memory order", List::Extended, 48, Order::Memory),
    legal("walk, extended, 48, random order", List::Extended, 48, Order::Random),
    legal("walk, extended, 960, memory order", List::Extended, 960, Order::Memory),
    legal("walk, extended, 960, random order", List::Extended, 960, Order::Random),
    legal("walk, trusted, 1", List::Trusted, 1, Order::Random),
    legal("walk, trusted, 960, memory order", List::Trusted, 960, Order::Memory),
    legal("walk, trusted, 960, random order", List::Trusted, 960, Order::Random),
    legal("walk, trusted, 1,022, memory order", List::Trusted, 1022, Order::Memory),
    legal("walk, trusted, 1,022, random order", List::Trusted, 1022, Order::Random),
    refused(
        "walk, extended, refused 11, the last of 12, random order",
        11,
        Chain::Falling(12, Order::Random),
    ),
    refused(
        "walk, extended, refused 11, the last of all 960, random order",
        11,
        Chain::Falling(960, Order::Random),
    ),
    refused(
        "walk, extended, refused 12, 100h to itself",
        12,
        Chain::Round(1, Order::Memory),
    ),
    refused(
        "walk, extended, refused 12, a loop of 12, random order",
        12,
        Chain::Round(12, Order::Random),
    ),
    refused(
        "walk, extended, refused 12, a loop of 17, random order",
        12,
        Chain::Round(17, Order::Random),
    ),
    refused(
        "walk, extended, refused 12, a loop of 48, random order",
        12,
        Chain::Round(48, Order::Random),
    ),
    refused(
        "walk, extended, refused 12, a tail and a loop, random order",
        12,
        Chain::TailAndLoop,
    ),
    refused(
        "walk, extended, refused 12, a loop of all 960, memory order",
        12,
        Chain::Round(960, Order::Memory),
    ),
    refused(
        "walk, extended, refused 12, a loop of all 960, random order",
        12,
        Chain::Round(960, Order::Random),
    ),
    of_compatible(refused(
        "walk, compatible, refused 12, the first to itself",
        12,
        Chain::Round(1, Order::Random),
    )),
    of_compatible(refused(
        "walk, compatible, refused 12, a loop of all 48, random order",
        12,
        Chain::Round(48, Order::Random),
    )),
    Kind {
        space: 4095,
        ..refused("walk, extended, refused 1, a space of 4,095 bytes", 1, SHORT_CHAIN)
    },
    Kind {
        room: 959,
        ..refused("walk, extended, refused 2, a room for 959", 2, SHORT_CHAIN)
    },
];

const SHORT_CHAIN: Chain = Chain::Legal(48, Order::Random);

const fn legal(what: &'static str, list: List, count: usize, order: Order) -> Kind {
    Kind {
        what,
        list,
        room: list.maximum(),
        number: 0,
        count,
        space: 4096,
        chain: Chain::Legal(count, order),
    }
}

const fn refused(what: &'static str, number: u8, chain: Chain) -> Kind {
    Kind {
        what,
        list: List::Extended,
        room: List::Extended.maximum(),
        number,
        count: 0,
        space: 4096,
        chain,
    }
}

/// The same in the compatible list.
const fn of_compatible(kind: Kind) -> Kind {
    Kind {
        list: List::Compatible,
        room: List::Compatible.maximum(),
        ..kind
    }
}

impl Kind {
    pub fn draw(&self, random: &mut Random) -> Box<[u8]> {
        let mut space = match self.chain {
            Chain::Legal(count, order) => chain::legal(self.list, count, order, random),
            Chain::Falling(count, order) => chain::falling(self.list, count, order, random),
            Chain::Round(count, order) => chain::looping(self.list, 0, count, order, random),
            Chain::TailAndLoop => {
                let (tail, round) = (1 + random.below(400), 2 + random.below(400));
                chain::looping(self.list, tail, round, Order::Random, random)
            }
        };
        space.truncate(self.space);
        space.into_boxed_slice()
    }

    /// Whether an answer has this number and this count, and a place only where the list is broken behind its start.
    pub const fn expects(&self, answer: Answer) -> bool {
        let broken = matches!(self.number, 11 | 12);
        answer.number == self.number && answer.count == self.count && (answer.place != 0) == broken
    }

    /// How many walks are in a pass: few where they are long.
    pub const fn calls(&self) -> usize {
        match self.chain {
            Chain::Legal(count, _) | Chain::Falling(count, _) | Chain::Round(count, _) if count <= 48 => 64,
            _ => 8,
        }
    }

    /// How many headers the bare chase follows: those of a legal chain, where the walk is served.
    pub const fn followed(&self) -> Option<usize> {
        match (self.number, self.chain) {
            (0, Chain::Legal(count, _)) => Some(count),
            _ => None,
        }
    }
}
