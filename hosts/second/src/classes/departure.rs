//! How a packet leaves a router, and the form that any packet has.

use thawribbon::raw::Port;

/// How a packet leaves.
#[derive(Clone, Copy, Debug, PartialEq, Eq)]
pub enum Departure {
    AsType0,
    AsType1,
    Trusted,
}

impl Departure {
    /// How a Type 1 or a trusted request leaves by the port whose range has its bus.
    pub const fn of(bytes: &[u8; 24], port: Port) -> Self {
        if is_trusted(bytes) {
            Self::Trusted
        } else if bytes[8] == port.secondary {
            Self::AsType0
        } else {
            Self::AsType1
        }
    }

    /// A packet's bytes as they leave so.
    pub fn bytes(self, packet: &[u8]) -> Vec<u8> {
        let mut bytes = packet.to_vec();
        if self == Self::AsType0 {
            bytes[0] = bytes[0] & 0xC0 | 0x04;
        }
        bytes
    }
}

/// Whether a packet with one of the six type codes is trusted.
pub const fn is_trusted(bytes: &[u8; 24]) -> bool {
    bytes[0] & 0x3F == 0x1B
}

/// How many forms there are.
pub const FORMS: usize = 16;

/// The form of a packet: whether it writes, its bit 7, its digest bit and its poison.
pub fn form(bytes: &[u8; 24]) -> usize {
    let (writes, bit_7) = (bytes[0] >> 6 & 1, bytes[0] >> 7);
    usize::from(writes << 3 | bit_7 << 2 | bytes[2] >> 6)
}
