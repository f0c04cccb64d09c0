//! How two boards side by side, and what they are given, may differ although both answer alike.

use super::board::Board;
use super::packet::Packet;
use super::random::Random;

/// What two boards side by side have to do with one another.
#[derive(Clone, Copy, Debug, PartialEq, Eq)]
pub enum Relation {
    /// Editions 1 and 2, and packets with bit 7 clear: they "are answered alike".
    Editions,
    /// Edition 1 twice, and the second has the same packets with bit 7 cleared: it "ignores bit 7 as now".
    Cleared,
    /// Edition 2 twice, and the second has none of the packets with bit 7 set: a refusal changes nothing.
    LeftOut,
}

pub const RELATIONS: [Relation; 3] = [Relation::Editions, Relation::Cleared, Relation::LeftOut];

impl Relation {
    /// The editions of the two boards.
    pub const fn editions(self) -> [u32; 2] {
        match self {
            Self::Editions => [1, 2],
            Self::Cleared => [1, 1],
            Self::LeftOut => [2, 2],
        }
    }

    /// Makes the second of two boards like the first, but for what they differ in.
    pub fn relate(self, boards: [&mut Board; 2]) {
        let [first, second] = boards;
        second.description = first.description;
        second.capture = first.capture;
        second.take_ordinary(first);
        second.take_trusted(first);
        [first.description.edition, second.description.edition] = self.editions();
    }

    /// What the two boards are given of a packet. The second may be given nothing.
    pub fn given(self, packet: Packet, random: &mut Random) -> (Packet, Option<Packet>) {
        let clear = packet.with_bit_7(false);
        match self {
            Self::Editions => (clear, Some(clear)),
            Self::Cleared => (packet, Some(clear)),
            Self::LeftOut if packet.length > 0 && random.percent(40) => (packet.with_bit_7(true), None),
            Self::LeftOut => (clear, Some(clear)),
        }
    }
}

#[cfg(test)]
mod tests {
    use super::super::packet::{LONGEST_PACKET, Packet};
    use super::{Board, RELATIONS, Random, Relation};

    #[test]
    fn two_boards_are_alike_but_for_their_editions() {
        let mut random = Random::new(1);
        for relation in RELATIONS {
            let [mut first, mut second] = [(); 2].map(|()| Board::spent());
            first.renew(&mut random);
            second.renew(&mut random);
            relation.relate([&mut first, &mut second]);
            let editions = [&first, &second].map(|board| board.description.edition);
            assert_eq!(editions, relation.editions());
            second.description.edition = first.description.edition;
            assert_eq!(first.description, second.description);
            assert_eq!(first.capture, second.capture);
            for (one, other) in [
                (&first.ordinary, &second.ordinary),
                (&first.ordinary_rules, &second.ordinary_rules),
                (&first.ordinary_marks, &second.ordinary_marks),
                (&first.trusted, &second.trusted),
                (&first.trusted_rules, &second.trusted_rules),
                (&first.trusted_marks, &second.trusted_marks),
            ] {
                assert_eq!(one.ours(), other.ours());
            }
        }
    }

    #[test]
    fn what_two_boards_are_given_differs_in_bit_7_or_not_at_all() {
        let mut random = Random::new(1);
        for first_byte in 0..=0xFF {
            let packet = Packet {
                bytes: [first_byte; LONGEST_PACKET],
                length: usize::from(first_byte) % 25,
            };
            let clear = first_byte & 0x7F;
            let first_bytes = |relation: Relation, random: &mut Random| {
                let (first, second) = relation.given(packet, random);
                assert_eq!((first.length, &first.bytes[1..]), (packet.length, &packet.bytes[1..]));
                (first.bytes[0], second.map(|second| second.bytes[0]))
            };
            assert_eq!(first_bytes(Relation::Editions, &mut random), (clear, Some(clear)));
            assert_eq!(first_bytes(Relation::Cleared, &mut random), (first_byte, Some(clear)));
            let left_out = first_bytes(Relation::LeftOut, &mut random);
            assert!(left_out == (clear, Some(clear)) || left_out == (clear | 0x80, None));
        }
    }
}
