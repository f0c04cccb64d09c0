//! A completion read back, by request 5/13: what it says, or refused with 3, 4, 5 or 6.
//!
//! Which bytes a reply may have is not written down a second time. The reply that would say the same is written as the
//! board writes it, and compared.

use super::completion::{self, LONGEST_COMPLETION, Outcome, SHORT_COMPLETION};
use super::refusal::Refusal;
use super::request::{Access, Request, Route};

/// "success with data, success without, UR"
#[derive(Clone, Copy, Debug, PartialEq, Eq)]
pub enum Said {
    WithData([u8; 4]),
    WithoutData,
    Unsupported,
}

/// A completion as it is read: the number, who replied to whom and to which tag, and what it says. All but the number
/// is nothing where it is refused.
#[derive(Clone, Copy, Debug, PartialEq, Eq)]
pub struct Heard {
    pub number: u8,
    pub completer: [u8; 2],
    pub requester: [u8; 2],
    pub tag: u8,
    pub said: Option<Said>,
}

/// Reads a completion.
pub fn read_completion(bytes: &[u8]) -> Heard {
    hear(bytes).unwrap_or_else(|refusal| Heard {
        number: refusal.number(),
        completer: [0; 2],
        requester: [0; 2],
        tag: 0,
        said: None,
    })
}

/// "Refused, lowest first: 3 under 12 bytes; 4 a first byte other than 4Ah and 0Ah; 5 a length other than 16 or 12 for
/// that byte; 6 any other byte that no reply of document 01 with that first byte has at its place."
fn hear(bytes: &[u8]) -> Result<Heard, Refusal> {
    let (header, tail) = bytes.split_first_chunk::<SHORT_COMPLETION>().ok_or(Refusal::Short)?;
    let heard = match header[0] {
        0x4A => {
            let data = tail.try_into().map_err(|_| Refusal::PacketLength)?;
            as_said(header, bytes, &[Said::WithData(data)])
        }
        0x0A if tail.is_empty() => as_said(header, bytes, &[Said::WithoutData, Said::Unsupported]),
        0x0A => return Err(Refusal::PacketLength),
        _ => return Err(Refusal::TypeCode),
    };
    debug_assert_eq!(heard.is_ok(), each_byte_is_somewhere(bytes));
    heard
}

/// The first of these sayings for which the reply is just these bytes.
fn as_said(header: &[u8; SHORT_COMPLETION], bytes: &[u8], sayings: &[Said]) -> Result<Heard, Refusal> {
    let [_, _, _, _, bus, target, _, _, high, low, tag, _] = *header;
    let heard = |said| Heard {
        number: 0,
        completer: [bus, target],
        requester: [high, low],
        tag,
        said: Some(said),
    };
    let said = sayings.iter().find(|&&said| is_reply(heard(said), said, bytes));
    said.map(|&said| heard(said)).ok_or(Refusal::FixedField)
}

/// Whether these bytes are the reply that says this, as the board that is the completer writes it.
fn is_reply(heard: Heard, said: Said, bytes: &[u8]) -> bool {
    let [bus, target] = heard.completer;
    let (device, function) = (target >> 3, target & 7);
    let request = Request {
        route: Route::Type0,
        access: Access::Read,
        poisoned: false,
        requester: heard.requester,
        tag: heard.tag,
        first_enables: 0,
        bus,
        device,
        function,
        offset: 0,
    };
    let outcome = match said {
        Said::WithData(data) => Outcome::Read(u32::from_le_bytes(data)),
        Said::WithoutData => Outcome::Written,
        Said::Unsupported => Outcome::Unsupported,
    };
    let mut reply = [0; LONGEST_COMPLETION];
    let length = completion::write(&mut reply, &request, Some((bus, device)), function, outcome);
    reply[..length] == *bytes
}

/// Whether each byte, by itself, is one that a reply with that first byte has at its place: by the words of the section
/// "The completion". The length fits the first byte. Only stated: no answer rests on it.
fn each_byte_is_somewhere(bytes: &[u8]) -> bool {
    let with_data = bytes[0] == 0x4A;
    let is_there = |(place, &byte): (usize, &u8)| match place {
        1 | 2 | 11 => byte == 0x00,
        3 => byte == u8::from(with_data),
        6 => byte == 0x00 || byte == 0x20 && !with_data,
        7 => byte == 0x04,
        _ => true,
    };
    bytes.iter().enumerate().all(is_there)
}
