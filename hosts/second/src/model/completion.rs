//! The completion, as document 01's section of that name lays out its bytes.

use super::request::Request;

/// The bytes of a completion with data, and the least room a reply may have.
pub(super) const LONGEST_COMPLETION: usize = 16;
/// The bytes of a completion without data.
pub(super) const SHORT_COMPLETION: usize = 12;

/// The first four bytes of a completion with data.
const WITH_DATA: [u8; 4] = [0x4A, 0x00, 0x00, 0x01];
/// The first four bytes of a completion without data.
const WITHOUT_DATA: [u8; 4] = [0x0A, 0x00, 0x00, 0x00];
/// The status byte of a success.
const SUCCESSFUL: u8 = 0x00;
/// The status byte of Unsupported Request.
const UNSUPPORTED: u8 = 0x20;

/// What became of a request.
#[derive(Clone, Copy, Debug, PartialEq, Eq)]
pub(super) enum Outcome {
    /// A successful read with the word it shows.
    Read(u32),
    /// A successful write.
    Written,
    /// Unsupported Request.
    Unsupported,
}

/// Writes the completion at the start of a reply, and answers its length. Bytes past it stay as lent.
#[inline]
pub(super) fn write(
    reply: &mut [u8; LONGEST_COMPLETION],
    request: &Request,
    capture: Option<(u8, u8)>,
    function: u8,
    outcome: Outcome,
) -> usize {
    let (bus, device) = capture.unwrap_or((0, 0));
    debug_assert!(device <= 31 && function <= 7, "device and function share a byte");
    let [requester_high, requester_low] = request.requester;
    let first = if let Outcome::Read(_) = outcome {
        WITH_DATA
    } else {
        WITHOUT_DATA
    };
    let status = if outcome == Outcome::Unsupported {
        UNSUPPORTED
    } else {
        SUCCESSFUL
    };
    let second = [bus, device << 3 | function, status, 0x04];
    let third = [requester_high, requester_low, request.tag, 0x00];
    for (place, word) in [first, second, third].into_iter().enumerate() {
        let word = u32::from_le_bytes(word);
        reply[4 * place..4 * place + 4].copy_from_slice(&word.to_le_bytes());
    }
    let Outcome::Read(data) = outcome else {
        return SHORT_COMPLETION;
    };
    reply[SHORT_COMPLETION..].copy_from_slice(&data.to_le_bytes());
    LONGEST_COMPLETION
}
