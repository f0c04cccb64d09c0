//! Packets at a router: made, routed by the model and by the subject, compared and counted.

use thawribbon::raw::Port;

use super::difference::Difference;
use super::routing::route;
use super::subject::Subject;
use crate::classes::{Group, RouteView, Tally, count_route};
use crate::generate::{LONGEST_LEAVING, LONGEST_LIST, LONGEST_PACKET, Random, RouteCase, RouteMaker, any_port};
use crate::twin::Twin;

/// How many calls go by before what lies around the buffers is made anew.
const CALLS_OF_A_LIFE: usize = 100;

/// The maker of calls, and what is lent with them.
pub struct Routes {
    maker: RouteMaker,
    ports: Twin<Port>,
    packet: Twin<u8>,
    leaving: Twin<u8>,
    calls_left: usize,
}

impl Routes {
    pub fn new() -> Self {
        Self {
            maker: RouteMaker::new(),
            ports: Twin::new(LONGEST_LIST),
            packet: Twin::new(LONGEST_PACKET),
            leaving: Twin::new(LONGEST_LEAVING),
            calls_left: 0,
        }
    }

    /// One call of `route`.
    pub fn route(
        &mut self,
        subject: &mut impl Subject,
        random: &mut Random,
        tally: &mut Tally,
    ) -> Result<(), Box<Difference>> {
        self.live(random);
        let is_noise = random.percent(4);
        let case = if is_noise {
            RouteMaker::noise(random)
        } else {
            self.maker.case(random)
        };
        self.load(&case, random);
        let routed = route(&mut self.ports, &mut self.packet, &mut self.leaving, subject)?;
        tally.add_if(is_noise, Group::Noise, 8);
        let view = RouteView {
            case: &case,
            routed,
            leaving: self.leaving.ours(),
        };
        count_route(&view, tally);
        Ok(())
    }

    /// Now and then, gives the buffers other starts and other margins. What lies around a list are ports too.
    fn live(&mut self, random: &mut Random) {
        if self.calls_left == 0 {
            self.calls_left = CALLS_OF_A_LIFE;
            self.ports.refill(|ports| ports.fill_with(|| any_port(random)));
            self.packet.refill(|bytes| random.fill(bytes));
            self.ports.shift(random.below(8));
            self.packet.shift(random.below(8));
            self.leaving.shift(random.below(8));
        }
        self.calls_left -= 1;
    }

    /// Puts a case's list, its packet and a random buffer in place.
    fn load(&mut self, case: &RouteCase, random: &mut Random) {
        self.ports.set(0, &case.ports);
        self.ports.lend(case.ports.len());
        self.packet.set(0, &case.packet.bytes);
        self.packet.lend(case.packet.length);
        self.leaving.refill(|bytes| random.fill(bytes));
        self.leaving.lend(case.leaving_length);
    }
}
