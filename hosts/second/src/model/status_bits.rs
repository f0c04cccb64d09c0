//! Request 6/13 on the model, sentence by sentence: error status bits that are cleared by writing 1.

use super::{Description, Served, serve};

/// A write of ones to all four bytes at 010h, and one that is trusted. Both are for bus 5, device 3, function 0.
const WRITE: [u8; 16] = packet(0x44, 0x010, 0x0F, [0xFF; 4]);
const TRUSTED_WRITE: [u8; 16] = packet(0x5B, 0x010, 0x0F, [0xFF; 4]);
/// What a reply is filled with before it is lent.
pub(super) const LENT: u8 = 0xEE;

pub(super) const fn packet(code: u8, offset: usize, enables: u8, data: [u8; 4]) -> [u8; 16] {
    let [d0, d1, d2, d3] = data;
    let (high, low) = ((offset >> 8) as u8, offset as u8);
    [code, 0, 0, 1, 1, 0, 7, enables, 5, 0x18, high, low, d0, d1, d2, d3]
}

/// A board that has captured bus 5 and device 3. In both spaces bits 3:0 of each byte may be written and bits 5:4 are
/// cleared by writing 1; A is 104h and B is 00Ch. The edition is 1 unless a test says another.
pub(super) struct Board {
    pub(super) ordinary: [Vec<u8>; 3],
    pub(super) trusted: [Vec<u8>; 3],
    pub(super) reply: [u8; 16],
    pub(super) edition: u32,
}

impl Board {
    pub(super) fn new() -> Self {
        let space = |byte| [vec![byte; 4096], vec![0x0F; 4096], vec![0x30; 4096]];
        Self {
            ordinary: space(0xFA),
            trusted: space(0xF5),
            reply: [LENT; 16],
            edition: 1,
        }
    }

    pub(super) fn serve(&mut self, packet: &[u8]) -> Served {
        self.serve_into(packet, 16)
    }

    /// Serves with so many bytes of the reply.
    pub(super) fn serve_into(&mut self, packet: &[u8], room: usize) -> Served {
        let description = Description {
            function: 0,
            a: 0x104,
            b: 0x00C,
            edition: self.edition,
        };
        let [ordinary, ordinary_rules, ordinary_marks] = &mut self.ordinary;
        let [trusted, trusted_rules, trusted_marks] = &mut self.trusted;
        serve(
            description,
            Some((5, 3)),
            ordinary,
            ordinary_rules,
            ordinary_marks,
            trusted,
            trusted_rules,
            trusted_marks,
            packet,
            &mut self.reply[..room],
        )
    }

    /// Serves a write, and answers the bytes at an offset of a space, or nothing where any other byte changed.
    fn left(mut self, packet: &[u8], is_trusted: bool, offset: usize) -> Option<[u8; 4]> {
        let mut due = [self.ordinary[0].clone(), self.trusted[0].clone()];
        assert_eq!(self.serve(packet).number, 0);
        let after = [&self.ordinary[0], &self.trusted[0]];
        let changed = usize::from(is_trusted);
        let place = offset..offset + 4;
        let left: [u8; 4] = after[changed][place.clone()].try_into().ok()?;
        due[changed][place].copy_from_slice(&left);
        (after == [&due[0], &due[1]]).then_some(left)
    }
}

/// What a write of some data leaves at 010h of the ordinary space.
fn left_by(enables: u8, data: [u8; 4]) -> Option<[u8; 4]> {
    Board::new().left(&packet(0x44, 0x010, enables, data), false, 0x010)
}

#[test]
fn a_marked_bit_becomes_0_if_the_enabled_data_bit_is_1_else_stays() {
    assert_eq!(left_by(0x0F, [0xFF; 4]), Some([0xCF; 4]));
    assert_eq!(left_by(0x0F, [0x00; 4]), Some([0xF0; 4]));
    assert_eq!(left_by(0x0F, [0x10, 0x20, 0x30, 0xC0]), Some([0xE0, 0xD0, 0xC0, 0xF0]));
    assert_eq!(left_by(0x05, [0xFF; 4]), Some([0xCF, 0xFA, 0xCF, 0xFA]));
    assert_eq!(left_by(0x00, [0xFF; 4]), Some([0xFA; 4]));
}

#[test]
fn a_marked_bit_that_is_0_stays_0() {
    let mut board = Board::new();
    board.ordinary[0][0x010..0x014].fill(0x00);
    assert_eq!(board.left(&WRITE, false, 0x010), Some([0x0F; 4]));
}

#[test]
fn each_space_has_its_own_marks() {
    let mut board = Board::new();
    (board.ordinary[2], board.trusted[2]) = (vec![0x00; 4096], vec![0xF0; 4096]);
    assert_eq!(board.left(&WRITE, false, 0x010), Some([0xFF; 4]));
    let mut board = Board::new();
    (board.ordinary[2], board.trusted[2]) = (vec![0x00; 4096], vec![0xF0; 4096]);
    assert_eq!(board.left(&TRUSTED_WRITE, true, 0x010), Some([0x0F; 4]));
}

#[test]
fn an_ordinary_write_at_a_still_changes_nothing() {
    let at_a = packet(0x44, 0x104, 0x0F, [0xFF; 4]);
    assert_eq!(Board::new().left(&at_a, false, 0x104), Some([0xFA; 4]));
    assert_eq!(Board::new().left(&at_a, true, 0x00C), Some([0xF5; 4]));
}

#[test]
fn a_bit_cleared_at_b_is_shown_at_a() {
    let mut board = Board::new();
    assert_eq!(board.serve(&packet(0x5B, 0x00C, 0x0F, [0x10; 4])).number, 0);
    for enables in 0..16 {
        let read = packet(0x04, 0x104, enables, [0; 4]);
        assert_eq!(board.serve(&read[..12]).length, 16);
        assert_eq!(board.reply[12..], [0xE0; 4]);
        board.reply.fill(LENT);
    }
    assert_eq!(board.trusted[0][0x00C..0x010], [0xE0; 4]);
}

#[test]
fn reads_and_unsupported_requests_clear_nothing() {
    let poisoned = {
        let mut packet = WRITE;
        packet[2] = 0x40;
        packet
    };
    let type_1 = packet(0x45, 0x010, 0x0F, [0xFF; 4]);
    for packet in [&WRITE[..], &TRUSTED_WRITE].map(|write| [&[write[0] & !0x40], &write[1..12]].concat()) {
        assert_eq!(Board::new().left(&packet, false, 0x010), Some([0xFA; 4]));
    }
    for packet in [poisoned, type_1] {
        assert_eq!(Board::new().left(&packet, false, 0x010), Some([0xFA; 4]));
    }
}

/// Serves on a board that is changed first, and answers the number. Nothing may change with a refusal.
fn number_of(change: impl Fn(&mut Board), packet: &[u8]) -> u8 {
    let mut board = Board::new();
    change(&mut board);
    let (ordinary, trusted) = (board.ordinary.clone(), board.trusted.clone());
    let served = board.serve(packet);
    let changed = (board.ordinary, board.trusted, board.reply) != (ordinary, trusted, [LENT; 16]);
    assert!(served.number == 0 || !changed && served.length == 0 && served.capture == Some((5, 3)));
    served.number
}

#[test]
fn a_bit_marked_both_ways_makes_the_board_badly_described() {
    for packet in [&WRITE[..], &TRUSTED_WRITE, &WRITE[..11], &[]] {
        for place in [0x000, 0x00C, 0x010, 0x104, 0x7FF, 0xFFF] {
            assert_eq!(number_of(|board| board.ordinary[1][place] = 0x1F, packet), 1);
            assert_eq!(number_of(|board| board.ordinary[2][place] = 0x38, packet), 1);
            assert_eq!(number_of(|board| board.trusted[1][place] = 0x2F, packet), 1);
            assert_eq!(number_of(|board| board.trusted[2][place] = 0x31, packet), 1);
        }
    }
    assert_eq!(number_of(|board| board.ordinary[2].fill(0xF0), &WRITE), 0);
    assert_eq!(number_of(|board| board.trusted[1].fill(0xCF), &WRITE), 0);
}

#[test]
fn so_does_another_buffer_length() {
    for length in [0, 1, 4092, 4095, 4097, 8192] {
        assert_eq!(number_of(|board| board.ordinary[2].resize(length, 0), &WRITE), 1);
        assert_eq!(number_of(|board| board.trusted[2].resize(length, 0), &WRITE), 1);
        assert_eq!(number_of(|board| board.trusted[2].resize(length, 0), &[]), 1);
    }
    assert_eq!(number_of(|_| {}, &WRITE), 0);
}
