//! Request 12/13 on the model, sentence by sentence: packets that come again, and writes that are swapped.

use super::Served;
use super::status_bits::{Board, LENT, packet};

const CODES: [u8; 6] = [0x04, 0x44, 0x05, 0x45, 0x1B, 0x5B];
/// The offset of a word like any other, A, and B.
const OFFSETS: [usize; 3] = [0x010, 0x104, 0x00C];
const DATA: [u8; 4] = [0xA5, 0x3C, 0xFF, 0x10];

/// What a packet was given, and what both spaces had then.
type Outcome = (Served, [u8; 16], [Vec<u8>; 2]);

/// Serves a packet with a reply as it is lent each time.
fn served(board: &mut Board, packet: &[u8], room: usize) -> Outcome {
    board.reply = [LENT; 16];
    let served = board.serve_into(packet, room);
    let spaces = [board.ordinary[0].clone(), board.trusted[0].clone()];
    (served, board.reply, spaces)
}

fn board(edition: u32) -> Board {
    Board {
        edition,
        ..Board::new()
    }
}

/// A packet of a type code: a read has no data.
fn bytes(code: u8, offset: usize, enables: u8) -> Vec<u8> {
    let all = packet(code, offset, enables, DATA);
    all[..if code & 0x40 == 0 { 12 } else { 16 }].to_vec()
}

/// "From the same state, with equal reply sizes and nothing between, ... a packet served twice gives the same reply twice and
/// leaves what one leaves."
#[test]
fn a_packet_served_twice_gives_the_same_reply_and_leaves_what_one_leaves() {
    for edition in [1, 2] {
        for code in CODES.into_iter().flat_map(|code| [code, code | 0x80]) {
            for (offset, enables) in OFFSETS
                .into_iter()
                .flat_map(|offset| (0..16).map(move |enables| (offset, enables)))
            {
                let (mut board, packet) = (board(edition), bytes(code, offset, enables));
                let first = served(&mut board, &packet, 16);
                assert!((0..4).all(|_| served(&mut board, &packet, 16) == first));
            }
        }
    }
}

/// The same of what is refused: by its length, by its first byte, by a field, or for the reply's size.
#[test]
fn a_refusal_is_given_again() {
    for (packet, room, number) in [
        (&[][..], 16, 3),
        (&[0x44; 11], 16, 3),
        (&bytes(0x00, 0x010, 15), 16, 4),
        (&bytes(0x44, 0x010, 15)[..15], 16, 5),
        (&bytes(0x04, 0x010, 0x1F), 16, 6),
        (&bytes(0x44, 0x010, 15), 15, 2),
    ] {
        let mut board = board(1);
        let first = served(&mut board, packet, room);
        assert_eq!((first.0.number, first.1), (number, [LENT; 16]));
        assert!(served(&mut board, packet, room) == first);
    }
}

/// "Two successful writes ..., with different enables, may be swapped, and leave what one write with both sets of enables
/// leaves. Under the bits of 6/13 as well, and in both editions."
#[test]
fn two_writes_may_be_swapped_and_leave_what_one_with_both_leaves() {
    for (edition, code) in [(1, 0x44), (1, 0xC4), (1, 0x5B), (1, 0xDB), (2, 0x44), (2, 0x5B)] {
        for (offset, both) in OFFSETS
            .into_iter()
            .flat_map(|offset| (0..=255).map(move |both| (offset, both)))
        {
            let [first, second, joint] =
                [both / 16, both % 16, (both / 16) | (both % 16)].map(|enables| bytes(code, offset, enables));
            let (mut one, mut other, mut joined) = (board(edition), board(edition), board(edition));
            let first_given = served(&mut one, &first, 16);
            let second_given = served(&mut one, &second, 16);
            let second_before = served(&mut other, &second, 16);
            let first_behind = served(&mut other, &first, 16);
            let both_given = served(&mut joined, &joint, 16);
            assert_eq!((first_given.0, first_given.1), (first_behind.0, first_behind.1));
            assert_eq!((second_given.0, second_given.1), (second_before.0, second_before.1));
            assert_eq!((both_given.0, both_given.1), (first_given.0, first_given.1));
            assert!(second_given.2 == first_behind.2 && second_given.2 == both_given.2);
        }
    }
}

/// "Nothing between": a write of other data, or an error that the board itself sets anew, and the repeat does something.
#[test]
fn a_repeat_after_something_else_may_leave_something_else() {
    let write = bytes(0x44, 0x010, 15);
    let mut once = board(1);
    let first = served(&mut once, &write, 16);
    served(&mut once, &packet(0x44, 0x010, 15, [0; 4]), 16);
    let between = once.ordinary[0].clone();
    let again = served(&mut once, &write, 16);
    assert_eq!((again.0, again.1), (first.0, first.1));
    assert!(again.2[0] != between && again.2 == first.2);

    once.ordinary[0][0x010] |= 0x30;
    let risen = once.ordinary[0].clone();
    assert!(served(&mut once, &write, 16).2[0] != risen);
    let read = bytes(0x04, 0x104, 15);
    let shown = served(&mut once, &read, 16);
    served(&mut once, &packet(0x5B, 0x00C, 15, [0; 4]), 16);
    assert!(served(&mut once, &read, 16).1 != shown.1);
}

/// A write of other data to a byte that both enable leaves what the later one has.
#[test]
fn writes_of_other_data_may_not_be_swapped() {
    let [first, second] = [[0x00; 4], [0x0F; 4]].map(|data| packet(0x44, 0x010, 15, data));
    let (mut one, mut other) = (board(1), board(1));
    served(&mut one, &first, 16);
    served(&mut other, &second, 16);
    assert!(served(&mut one, &second, 16).2 != served(&mut other, &first, 16).2);
}
