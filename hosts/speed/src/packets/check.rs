//! Whether all sides give equal answers to packets, and the answers that the row is about.

use super::board::{Answer, Board, Library, SafeRust};
use super::masks::{Looking, Masks};
use super::setting::{Lent, Setting};

/// What a packet has done.
type After<'board> = (Answer, Option<(u8, u8)>, &'board Lent);

/// Sends all packets twice to a board of every side, and compares numbers, lengths, captures, spaces and replies after
/// every packet, in all bytes.
pub fn equal_answers(
    what: &str,
    setting: &Setting,
    packets: &[Box<[u8]>],
    is_served: bool,
    answer: Answer,
    status: Option<u8>,
) -> Result<(), String> {
    let mut safe_rust = SafeRust::new(setting);
    let mut library = Library::new(setting);
    let mut in_c = is_served.then(|| (Masks::new(setting), Looking::new(setting)));
    for packet in packets.iter().chain(packets) {
        let expected = after(&mut safe_rust, packet);
        let (_, _, lent) = expected;
        if expected.0 != answer || status.is_some_and(|status| lent.reply[6] != status) {
            return Err(format!(
                "{what}: {packet:02X?} is answered {:?}, not {answer:?}",
                expected.0
            ));
        }
        compare::<Library>(what, packet, after(&mut library, packet), expected)?;
        if let Some((masks, looking)) = &mut in_c {
            compare::<Masks>(what, packet, after(masks, packet), expected)?;
            compare::<Looking>(what, packet, after(looking, packet), expected)?;
        }
    }
    Ok(())
}

fn after<'board, Side: Board>(board: &'board mut Side, packet: &[u8]) -> After<'board> {
    let answer = board.serve(packet);
    (answer, board.capture(), board.lent())
}

fn compare<Side: Board>(what: &str, packet: &[u8], found: After, expected: After) -> Result<(), String> {
    if found == expected {
        return Ok(());
    }
    let (side, peer) = (Side::NAME, SafeRust::NAME);
    let part = match (
        found.0 == expected.0,
        found.1 == expected.1,
        found.2.reply == expected.2.reply,
    ) {
        (false, _, _) => format!("{:?} instead of {:?}", found.0, expected.0),
        (_, false, _) => format!("capture {:?} instead of {:?}", found.1, expected.1),
        (_, _, false) => format!("reply {:02X?} instead of {:02X?}", found.2.reply, expected.2.reply),
        _ => "other bytes in a space".to_string(),
    };
    Err(format!(
        "{what}: packet {packet:02X?}: {side} differs from {peer}: {part}"
    ))
}
