//! One packet at the router, by request 1/13: refused, given UR, or written as it leaves.

use super::edition::Bit7;
use super::ports::{Port, check, port_of};
use super::refusal::Refusal;
use super::request::{Request, Route};

/// The bytes of the longest packet, and the least that the buffer for what leaves may have.
const LONGEST_PACKET: usize = 20;
/// Type codes 04h and 05h, and also 44h and 45h, differ in this bit of byte 0: it is set in Type 1.
const TYPE_1: u8 = 0x01;

/// The answer to a packet at the router: its number, the place in the list of the port that it leaves by, and how many
/// bytes of the buffer are written. Number 0 without a port is the verdict UR.
#[derive(Clone, Copy, Debug, PartialEq, Eq)]
pub struct Routed {
    pub number: u8,
    pub port: Option<u8>,
    pub length: usize,
}

/// Routes one packet. "Only a packet that leaves is written", to the start of the buffer.
pub fn route(ports: &[Port], packet: &[u8], leaving: &mut [u8]) -> Routed {
    let (number, port, length) = match verdict(ports, packet, leaving) {
        Ok(Some(port)) => (0, Some(port), packet.len()),
        Ok(None) => (0, None, 0),
        Err(refusal) => (refusal.number(), None, 0),
    };
    Routed { number, port, length }
}

/// The port that a packet leaves by, or none for UR. "The list's 1, that 2 and document 01's checks 3 to 6 come first,
/// in that order." "Type 0 at the router: 4." "No port: the verdict UR, and nothing is written." "A trusted request for
/// a bus in a range leaves there unchanged if that port supports it, else 4." And of bit 7 of byte 0, request 9/13: "The
/// router keeps ignoring it."
fn verdict(ports: &[Port], packet: &[u8], leaving: &mut [u8]) -> Result<Option<u8>, Refusal> {
    check(ports)?;
    let leaving = leaving.first_chunk_mut::<LONGEST_PACKET>().ok_or(Refusal::Room)?;
    let request = Request::read(packet, Bit7::Ignored)?;
    if request.route == Route::Type0 {
        return Err(Refusal::TypeCode);
    }
    let Some((place, port)) = port_of(ports, request.bus) else {
        return Ok(None);
    };
    if request.route == Route::Trusted && !port.tcs {
        return Err(Refusal::TypeCode);
    }
    let leaving = &mut leaving[..packet.len()];
    leaving.copy_from_slice(packet);
    if is_changed(&request, port) {
        leaving[0] &= !TYPE_1;
    }
    debug_assert!(is_as_written(&request, port, packet, leaving));
    Ok(Some(place as u8))
}

/// "A Type 1 request whose bus equals a port's secondary leaves there as Type 0, otherwise unchanged; one inside the
/// range leaves unchanged."
fn is_changed(request: &Request, port: Port) -> bool {
    request.route == Route::Type1 && request.bus == port.secondary
}

/// What leaves, read back as a request: the same but for its type, and Type 0 just where that is due. Only stated: no
/// answer rests on it.
fn is_as_written(request: &Request, port: Port, packet: &[u8], leaving: &[u8]) -> bool {
    let route = match request.route {
        Route::Type1 if request.bus == port.secondary => Route::Type0,
        kept => kept,
    };
    let same_bytes = packet[1..] == leaving[1..] && packet[0] & 0x80 == leaving[0] & 0x80;
    same_bytes && Request::read(leaving, Bit7::Ignored) == Ok(Request { route, ..*request })
}
