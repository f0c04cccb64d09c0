//! One packet at a router: routed by the model and by the subject, and compared.

use thawribbon::raw::{Port, Routed};

use super::difference::Difference;
use super::reference::Reference;
use super::subject::Subject;
use crate::twin::Twin;

/// Has a packet routed by a list of ports, all as it is lent. What leaves is written into the third.
pub fn route(
    ports: &mut Twin<Port>,
    packet: &mut Twin<u8>,
    leaving: &mut Twin<u8>,
    subject: &mut impl Subject,
) -> Result<Routed, Box<Difference>> {
    leaving.remember();
    let ours = Reference.route(ports.ours(), packet.ours(), leaving.ours_mut());
    let theirs = subject.route(ports.theirs(), packet.theirs(), leaving.theirs_mut());
    if ours == theirs && ports.agrees() && packet.agrees() && leaving.agrees() {
        return Ok(ours);
    }
    let difference = Difference::new("route", ours, theirs)
        .ports("list, with a plus for TCS routing", ports.ours())
        .bytes("packet", packet.ours())
        .bytes("buffer as lent", leaving.before())
        .bytes("buffer of the model", leaving.ours())
        .bytes("buffer of the subject", leaving.theirs())
        .look("ports", ports)
        .look("packet", packet)
        .look("buffer", leaving);
    Err(Box::new(difference))
}
