//! Whether all sides give equal answers to packets, and the answers that the row is about.

use super::board::{Captures, Library, Pair, SafeRust};
use super::by_hand::ByHand;
use super::kind::Kind;
use super::masks::{Looking, Masks};
use super::two::Two;
use crate::packets::{self, Answer, Board, Lent};

/// What a packet has done: the answer, the captures, the reply and the spaces.
pub struct After<'board> {
    pub answer: Answer,
    captures: Captures,
    pub reply: &'board [u8],
    spaces: [&'board [u8]; 4],
}

/// Sends all packets twice to a board of every side, and compares numbers, lengths, captures, spaces and replies after
/// every packet, in all bytes. Of the function that serves as a board of one, the answer and the reply.
pub fn equal_answers(kind: &Kind, two: &Two, packets: &[Box<[u8]>]) -> Result<(), String> {
    let what = kind.what;
    let mut safe_rust = SafeRust::new(two);
    let mut library = Library::new(two);
    let mut of_served = kind
        .is_served()
        .then(|| (Masks::new(two), Looking::new(two), ByHand::new(two)));
    let mut alone = kind.alone(two).map(packets::Library::new);
    for packet in packets.iter().chain(packets) {
        let expected = after(&mut safe_rust, packet);
        if expected.answer != kind.answer || kind.status.is_some_and(|status| expected.reply[6] != status) {
            let found = expected.answer;
            return Err(format!(
                "{what}: {packet:02X?} is answered {found:?}, not {:?}",
                kind.answer
            ));
        }
        compare::<Library>(what, packet, &after(&mut library, packet), &expected)?;
        if let Some((masks, looking, by_hand)) = &mut of_served {
            compare::<Masks>(what, packet, &after(masks, packet), &expected)?;
            compare::<Looking>(what, packet, &after(looking, packet), &expected)?;
            compare::<ByHand>(what, packet, &after(by_hand, packet), &expected)?;
        }
        if let Some(alone) = &mut alone {
            let answer = alone.serve(packet);
            if answer != expected.answer || alone.lent().reply != expected.reply {
                return Err(format!(
                    "{what}: packet {packet:02X?}: the function alone answers otherwise"
                ));
            }
        }
    }
    Ok(())
}

pub fn after<'board, Side: Pair>(board: &'board mut Side, packet: &[u8]) -> After<'board> {
    let answer = board.serve(packet);
    let [one, other]: [&Lent; 2] = board.lent();
    After {
        answer,
        captures: board.captures(),
        reply: board.reply(),
        spaces: [&one.ordinary, &one.trusted, &other.ordinary, &other.trusted],
    }
}

pub fn compare<Side: Pair>(what: &str, packet: &[u8], found: &After, expected: &After) -> Result<(), String> {
    let part = if found.answer != expected.answer {
        format!("{:?} instead of {:?}", found.answer, expected.answer)
    } else if found.captures != expected.captures {
        format!("captures {:?} instead of {:?}", found.captures, expected.captures)
    } else if found.reply != expected.reply {
        format!("reply {:02X?} instead of {:02X?}", found.reply, expected.reply)
    } else if found.spaces != expected.spaces {
        "other bytes in a space".to_string()
    } else {
        return Ok(());
    };
    let (side, peer) = (Side::NAME, SafeRust::NAME);
    Err(format!(
        "{what}: packet {packet:02X?}: {side} differs from {peer}: {part}"
    ))
}
