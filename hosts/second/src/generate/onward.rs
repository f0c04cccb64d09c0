//! A board behind a port of a router, and packets that get through to it.

use thawribbon::raw::Port;

use super::board::Board;
use super::packet::{Packet, PacketMaker, Route, encode};
use super::ports::good_list;
use super::random::Random;

/// A good list of ports, and which of them the board is behind. That one supports TCS routing.
pub struct Backplane {
    pub ports: Vec<Port>,
    pub place: usize,
}

impl Backplane {
    pub fn draw(random: &mut Random) -> Self {
        let mut ports = good_list(random.within(1, 32), random);
        let place = random.below(ports.len());
        ports[place].tcs = true;
        Self { ports, place }
    }

    pub fn port(&self) -> Port {
        self.ports[self.place]
    }

    /// A packet that leaves by the board's port, with bit 7 as often as not, poisoned now and then. What is to come to the board as Type 0 is sent
    /// as Type 1 to the port's secondary.
    pub fn packet(&self, board: &Board, maker: &mut PacketMaker, random: &mut Random) -> Packet {
        let Port {
            secondary, subordinate, ..
        } = self.port();
        let mut fields = maker.fields(board, false, random);
        fields.poisoned = random.percent(25);
        if random.percent(15) {
            fields.route = Route::Type1;
        }
        let inside = random.within(secondary.into(), subordinate.into()) as u8;
        match fields.route {
            Route::Type0 => (fields.route, fields.bus) = (Route::Type1, secondary),
            Route::Trusted if (secondary..=subordinate).contains(&fields.bus) => {}
            _ => fields.bus = inside,
        }
        encode(&fields, random).with_bit_7(random.percent(50))
    }
}
