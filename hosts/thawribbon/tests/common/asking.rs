//! The asking side: parts and requests to try, and the reader looked at from all sides.

use super::lent;
use thawribbon::{Completion, Id, Kind, NotDone, Request, Said, raw};

/// The six kinds, in the order of their codes' first table.
pub const KINDS: [Kind; 6] = [
    Kind::Type0Read,
    Kind::Type0Write,
    Kind::Type1Read,
    Kind::Type1Write,
    Kind::TrustedRead,
    Kind::TrustedWrite,
];

/// Who asks on the bench sheet, and who is asked.
pub const HOST: [u8; 2] = [0x01, 0x00];
pub const TARGET: Id = id(0x05, 3, 0);

pub const fn id(bus: u8, device: u8, function: u8) -> Id {
    Id { bus, device, function }
}

/// P2's packet, from its parts.
pub const WRITE_PARTS: raw::Parts = raw::Parts {
    offset: 0x004,
    kind: 0x44,
    requester: [0x01, 0x00],
    tag: 0x07,
    bus: 0x05,
    device: 3,
    function: 0,
    enables: 0x0F,
    data: [0x11, 0x22, 0x33, 0x44],
};

/// P1's packet, from its parts; a read's data is ignored.
pub const READ_PARTS: raw::Parts = raw::Parts {
    kind: 0x1B,
    tag: 0x08,
    ..WRITE_PARTS
};

/// A request of each kind, by the function that begins one.
pub fn request(kind: Kind, target: Id, offset: u16, data: [u8; 4]) -> Request {
    match kind {
        Kind::Type0Read => Request::type0_read(target, offset),
        Kind::Type0Write => Request::type0_write(target, offset, data),
        Kind::Type1Read => Request::type1_read(target, offset),
        Kind::Type1Write => Request::type1_write(target, offset, data),
        Kind::TrustedRead => Request::trusted_read(target, offset),
        Kind::TrustedWrite => Request::trusted_write(target, offset, data),
    }
}

/// The packet of parts without a fault, by document 01's places.
pub fn packet(parts: raw::Parts) -> Vec<u8> {
    let mut packet = vec![
        parts.kind,
        0,
        0,
        1,
        parts.requester[0],
        parts.requester[1],
        parts.tag,
        parts.enables,
    ];
    packet.extend([parts.bus, parts.device * 8 + parts.function]);
    packet.extend([(parts.offset / 256) as u8, (parts.offset % 256) as u8]);
    if parts.kind & 0x40 != 0 {
        packet.extend(parts.data);
    }
    packet
}

/// Writes into a buffer of so many bytes: the number is this one, and the buffer holds the packet, or is as lent.
pub fn writes(parts: raw::Parts, room: usize, number: u8) {
    let mut buffer = lent(&vec![0xEE; room]);
    let written = raw::write_request(parts, buffer.part_mut());
    let expected = if number == 0 { packet(parts) } else { Vec::new() };
    buffer.expect(0, &expected);
    buffer.check("the buffer");
    let length = expected.len();
    assert_eq!(written, raw::Written { length, number }, "{parts:X?} in {room} bytes");
}

/// Reads by `raw::read_completion` and by `Completion::read`: both say the same, and the number is this one.
pub fn reads(bytes: &[u8], number: u8) -> raw::Heard {
    let completion = lent(bytes);
    let heard = raw::read_completion(completion.part());
    assert_eq!(heard.number, number, "{bytes:02X?}");
    match Completion::read(completion.part()) {
        Ok(read) => says(&read, heard, bytes),
        Err(NotDone::Unsupported(read)) => {
            assert_eq!(read.said(), Said::Unsupported);
            says(&read, heard, bytes);
        }
        Err(NotDone::Refused(refusal)) => {
            assert_eq!(refusal.number(), number);
            assert_eq!(
                heard,
                raw::Heard {
                    number,
                    ..raw::Heard::default()
                }
            );
        }
    }
    completion.check("the completion");
    heard
}

/// A completion that was read has these bytes, and says what was heard of them.
fn says(read: &Completion, heard: raw::Heard, bytes: &[u8]) {
    let two = |id: Id| [id.bus, id.device * 8 + id.function];
    let (said, data) = match read.said() {
        Said::Data(data) => (1, data),
        Said::Done => (2, [0; 4]),
        Said::Unsupported => (3, [0; 4]),
    };
    let expected = raw::Heard {
        number: 0,
        said,
        completer: two(read.completer()),
        requester: two(read.requester()),
        tag: read.tag(),
        data,
    };
    assert_eq!((heard, read.bytes()), (expected, bytes));
}
