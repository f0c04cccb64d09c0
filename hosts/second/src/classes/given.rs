//! What a packet is given: its number, and the written bytes of its reply.

/// The bytes of the longest reply.
const LONGEST: usize = 16;

/// A number, and so many bytes of a reply.
#[derive(Clone, Copy, Debug, PartialEq, Eq)]
pub struct Given {
    pub number: u8,
    pub length: usize,
    reply: [u8; LONGEST],
}

impl Given {
    pub fn new(number: u8, written: &[u8]) -> Self {
        let mut reply = [0; LONGEST];
        reply[..written.len()].copy_from_slice(written);
        Self {
            number,
            length: written.len(),
            reply,
        }
    }

    pub const fn is_success(&self) -> bool {
        self.number == 0 && self.reply[6] == 0x00
    }

    pub const fn is_unsupported(&self) -> bool {
        self.number == 0 && self.reply[6] == 0x20
    }

    /// The completer ID of a reply, else 0.
    pub const fn completer(&self) -> [u8; 2] {
        [self.reply[4], self.reply[5]]
    }

    /// The data of a reply that has some, else 0.
    pub const fn data(&self) -> [u8; 4] {
        let [.., first, second, third, fourth] = self.reply;
        [first, second, third, fourth]
    }

    /// The same reply with the requester and the tag of a packet.
    pub fn for_requester_of(mut self, packet: &[u8]) -> Self {
        self.reply[8..11].copy_from_slice(&packet[4..7]);
        self
    }
}

#[cfg(test)]
mod tests {
    use super::Given;

    #[test]
    fn a_reply_is_taken_apart() {
        let read = [0x4A, 0, 0, 1, 5, 0x18, 0, 4, 1, 2, 3, 0, 9, 8, 7, 6];
        let given = Given::new(0, &read);
        assert!(given.is_success() && !given.is_unsupported());
        assert_eq!((given.completer(), given.data()), ([5, 0x18], [9, 8, 7, 6]));
        let other = given.for_requester_of(&[0, 0, 0, 0, 7, 8, 9]);
        assert_ne!(other, given);
        assert_eq!(other.for_requester_of(&[0, 0, 0, 0, 1, 2, 3]), given);
    }

    #[test]
    fn a_refusal_is_neither_a_success_nor_unsupported() {
        let refused = Given::new(4, &[]);
        assert!(!refused.is_success() && !refused.is_unsupported());
        assert!(Given::new(0, &[0x0A, 0, 0, 0, 0, 0, 0x20, 4, 0, 0, 0, 0]).is_unsupported());
    }
}
