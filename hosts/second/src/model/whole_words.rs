//! Request 7/13 on the model, sentence by sentence: whole words on reads.

use super::status_bits::{Board, LENT, packet};
use super::{Said, read_completion};

/// What stands at 010h of the ordinary space, at 010h of the trusted one, and at B. All bytes differ, and none is 00h.
const ORDINARY: [u8; 4] = [0x11, 0x22, 0x33, 0x44];
const TRUSTED: [u8; 4] = [0x55, 0x66, 0x77, 0x88];
const AT_B: [u8; 4] = [0x99, 0xAA, 0xBB, 0xCD];
/// What is stored at A, and never returned.
const AT_A: [u8; 4] = [0xEF, 0xDE, 0xCC, 0xF7];

/// The three places that a read can have, by type code and offset, and what is returned there.
const READS: [(u8, usize, [u8; 4]); 3] = [(0x04, 0x010, ORDINARY), (0x04, 0x104, AT_B), (0x1B, 0x010, TRUSTED)];
/// For each of them, where the bytes stand: the write that reaches them, by type code and offset.
const WRITES: [(u8, usize); 3] = [(0x44, 0x010), (0x5B, 0x00C), (0x5B, 0x010)];

fn board() -> Board {
    let mut board = Board::new();
    board.ordinary[0][0x010..0x014].copy_from_slice(&ORDINARY);
    board.ordinary[0][0x104..0x108].copy_from_slice(&AT_A);
    board.trusted[0][0x010..0x014].copy_from_slice(&TRUSTED);
    board.trusted[0][0x00C..0x010].copy_from_slice(&AT_B);
    board
}

/// The reply to a packet, after a look that the rest of what was lent stays.
fn reply(board: &mut Board, packet: &[u8]) -> Vec<u8> {
    board.reply.fill(LENT);
    let served = board.serve(packet);
    assert_eq!(served.number, 0);
    assert!(board.reply[served.length..].iter().all(|&byte| byte == LENT));
    board.reply[..served.length].to_vec()
}

/// The data that a read returns.
fn returned(board: &mut Board, code: u8, offset: usize, enables: u8) -> Vec<u8> {
    let read = packet(code, offset, enables, [0; 4]);
    reply(board, &read[..12]).split_off(12)
}

#[test]
fn every_successful_read_returns_all_four_bytes_whatever_the_enables() {
    for (code, offset, due) in READS {
        for enables in 0..16 {
            let mut board = board();
            let before = (board.ordinary.clone(), board.trusted.clone());
            let read = packet(code, offset, enables, [0; 4]);
            let header = [0x4A, 0, 0, 1, 5, 0x18, 0, 4, 1, 0, 7, 0];
            assert_eq!(reply(&mut board, &read[..12]), [&header[..], &due].concat());
            assert_eq!((board.ordinary, board.trusted), before);
        }
    }
}

/// "Poison on a read is ignored", and a digest "is not read".
#[test]
fn so_does_a_read_with_poison_or_a_digest() {
    for (code, offset, due) in READS {
        for (enables, flags) in (0..16).flat_map(|enables| [0x40, 0x80, 0xC0].map(|flags| (enables, flags))) {
            let mut read = packet(code, offset, enables, [0xFF; 4]);
            read[2] = flags;
            let length = if flags & 0x80 == 0 { 12 } else { 16 };
            assert_eq!(reply(&mut board(), &read[..length])[12..], due);
        }
    }
}

/// "This replaces document 01's 00h rule at the reading leaf, and every reply that rests on it."
#[test]
fn what_is_heard_has_all_four_bytes() {
    for (code, offset, due) in READS {
        for enables in 0..16 {
            let read = packet(code, offset, enables, [0; 4]);
            let heard = read_completion(&reply(&mut board(), &read[..12]));
            assert_eq!(heard.said, Some(Said::WithData(due)));
        }
    }
}

/// The board lets bits 3:0 be written, and bits 5:4 be cleared.
#[test]
fn a_write_is_under_its_enables_as_before_and_a_read_shows_the_byte_that_it_changed() {
    for ((code, offset, before), (write, at)) in READS.into_iter().zip(WRITES) {
        for place in 0..4 {
            let mut board = board();
            reply(&mut board, &packet(write, at, 1 << place, [0xFF; 4]));
            let mut due = before;
            due[place] = before[place] & 0xC0 | 0x0F;
            assert_ne!(due, before);
            for enables in 0..16 {
                assert_eq!(returned(&mut board, code, offset, enables), due);
            }
        }
    }
}

/// "Every successful read": the others have no data, as before.
#[test]
fn a_read_that_gets_ur_returns_nothing() {
    for enables in 0..16 {
        let type_1 = packet(0x05, 0x010, enables, [0; 4]);
        let mut other_function = packet(0x04, 0x104, enables, [0; 4]);
        other_function[9] = 0x19;
        let mut other_bus = packet(0x1B, 0x010, enables, [0; 4]);
        other_bus[8] = 4;
        for read in [type_1, other_function, other_bus] {
            let unsupported = [0x0A, 0, 0, 0, 5, 0x18, 0x20, 4, 1, 0, 7, 0];
            assert_eq!(reply(&mut board(), &read[..12]), unsupported);
        }
    }
}
