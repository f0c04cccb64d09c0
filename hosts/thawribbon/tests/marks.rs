//! Bits that are cleared by writing 1: what a write leaves of them, what leaves them alone, and which are refused.
#![forbid(unsafe_code)]

mod common;

use common::{Bench, Lent, SPACE, TRUSTED_READ, WRITE, WRITTEN, lent};
use thawribbon::{Board, Capture, Description, Edition, NO_MARKS, NotDone, Refusal, Space};

const FIVE_THREE: Option<Capture> = Some(Capture { bus: 0x05, device: 3 });

/// The two spaces of a board, by byte 0 of a write to each.
const SPACES: [u8; 2] = [0x44, 0x5B];

/// Byte 0 of a write to the other space than this one is for.
fn other(code: u8) -> u8 {
    SPACES[0] ^ SPACES[1] ^ code
}

/// A space with its rules and its marks.
fn space(bench: &mut Bench, code: u8) -> [&mut Lent<u8>; 3] {
    match code {
        0x44 => [
            &mut bench.ordinary,
            &mut bench.ordinary_rules,
            &mut bench.ordinary_marks,
        ],
        _ => [&mut bench.trusted, &mut bench.trusted_rules, &mut bench.trusted_marks],
    }
}

/// What the word at 004h of a space holds, with its rules and its marks.
fn word(bench: &mut Bench, code: u8, words: [[u8; 4]; 3]) {
    for (part, word) in space(bench, code).into_iter().zip(words) {
        part.set(0x004, &word);
    }
}

/// A board that has captured, with all bits of both spaces at 004h set and marked, and none of them writable.
fn marked() -> Bench {
    let mut bench = Bench::captured();
    for code in SPACES {
        word(&mut bench, code, [[0xFF; 4], [0x00; 4], [0xFF; 4]]);
    }
    bench
}

/// P2's packet as a write to a space, with this data.
fn write(code: u8, data: [u8; 4]) -> [u8; 16] {
    let mut packet = WRITE;
    packet[0] = code;
    packet[12..].copy_from_slice(&data);
    packet
}

/// A packet with another byte somewhere.
fn with<const LENGTH: usize>(mut packet: [u8; LENGTH], at: usize, byte: u8) -> [u8; LENGTH] {
    packet[at] = byte;
    packet
}

/// Adds a bit to a byte of a part.
fn add(part: &mut Lent<u8>, at: usize, bit: u8) {
    let byte = part.part()[at] | bit;
    part.set(at, &[byte]);
}

/// In the rules and in the marks of one space a bit is refused. In the rules of one and in the marks of the other it is not.
fn one_bit(code: u8, at: usize, bit: u8) {
    let mut bench = Bench::captured();
    let [_, rules, marks] = space(&mut bench, code);
    add(rules, at, bit);
    add(marks, at, bit);
    bench.refuses(&write(code, [0x11, 0x22, 0x33, 0x44]), 1);
    space(&mut bench, code)[2].set(at, &[0]);
    let [_, rules, marks] = space(&mut bench, other(code));
    rules.set(at, &[0]);
    marks.set(at, &[bit]);
    space(&mut bench, code)[0].expect(0x004, &[0x11, 0x22, 0x33, 0x44]);
    bench.answers(&write(code, [0x11, 0x22, 0x33, 0x44]), &WRITTEN, FIVE_THREE);
}

#[test]
fn a_bit_in_rules_and_marks_is_refused() {
    for code in SPACES {
        (0..SPACE).step_by(7).for_each(|at| one_bit(code, at, 1 << (at % 8)));
        for bit in (0..8).map(|place| 1 << place) {
            one_bit(code, 0, bit);
            one_bit(code, SPACE - 1, bit);
        }
    }
}

#[test]
fn it_is_refused_before_anything_else() {
    for code in SPACES {
        let mut bench = Bench::captured();
        space(&mut bench, code)[2].set(0x007, &[0x80]);
        bench.reply = lent(&[0xEE; 15]);
        bench.refuses(&WRITE, 1);
        bench.refuses(&WRITE[..11], 1);
    }
}

/// What a write leaves of a byte that is enabled, bit by bit.
fn left(old: u8, rule: u8, mark: u8, data: u8) -> u8 {
    let bit = |byte: u8, place: u32| byte >> place & 1;
    let becomes = |place: u32| match (bit(rule, place), bit(mark, place), bit(data, place)) {
        (1, _, data) => data,
        (_, 1, 1) => 0,
        _ => bit(old, place),
    };
    (0..8).map(|place| becomes(place) << place).sum()
}

/// Each of these bytes in the place of the old bits, of the rules, of the marks and of the data, under each of the enables.
#[test]
fn a_marked_bit_is_cleared_by_a_one_and_by_nothing_else() {
    const BYTES: [u8; 4] = [0x00, 0x35, 0xCA, 0xFF];
    for (n, enables) in (0..256).flat_map(|n| (0..16_u8).map(move |enables| (n, enables))) {
        let [old, rule, mark, data] = [0, 2, 4, 6].map(|shift| BYTES[n >> shift & 3]);
        let mark = mark & !rule;
        let expected = [0, 1, 2, 3].map(|place| match enables >> place & 1 {
            1 => left(old, rule, mark, data),
            _ => old,
        });
        let code = SPACES[(n + usize::from(enables)) % 2];
        let mut bench = Bench::captured();
        word(&mut bench, code, [[old; 4], [rule; 4], [mark; 4]]);
        space(&mut bench, code)[0].expect(0x004, &expected);
        bench.answers(&with(write(code, [data; 4]), 7, enables), &WRITTEN, FIVE_THREE);
    }
}

/// Old FFh, rule F0h, mark 0Ch, data A5h: four bits are written, of two one is cleared, and two can be changed by nobody.
#[test]
fn marked_and_writable_bits_in_one_byte() {
    for code in SPACES {
        let mut bench = Bench::captured();
        word(&mut bench, code, [[0xFF; 4], [0xF0; 4], [0x0C; 4]]);
        space(&mut bench, code)[0].expect(0x004, &[0xAB; 4]);
        bench.answers(&write(code, [0xA5; 4]), &WRITTEN, FIVE_THREE);
    }
}

#[test]
fn what_is_done_and_what_is_refused_can_keep_a_marked_bit() {
    for code in SPACES {
        marked().answers(&write(code, [0x00; 4]), &WRITTEN, FIVE_THREE);
        marked().answers(&with(write(code, [0xFF; 4]), 7, 0x00), &WRITTEN, FIVE_THREE);
        marked().refuses(&write(code, [0xFF; 4])[..15], 5);
        let mut shown = [
            0x4A, 0x00, 0x00, 0x01, 0x05, 0x18, 0x00, 0x04, 0x01, 0x00, 0x08, 0x00, 0, 0, 0, 0,
        ];
        shown[12..].fill(0xFF);
        marked().answers(&with(TRUSTED_READ, 0, code & 0x1F), &shown, FIVE_THREE);
    }
}

#[test]
fn an_unsupported_request_keeps_a_marked_bit() {
    let unsupported = with(WRITTEN, 6, 0x20);
    let [ordinary, trusted] = SPACES.map(|code| write(code, [0xFF; 4]));
    for packet in [
        with(ordinary, 0, 0x45),
        with(ordinary, 9, 0x19),
        with(ordinary, 2, 0x40),
        with(trusted, 2, 0x40),
        with(trusted, 8, 0x06),
        with(trusted, 9, 0x19),
        with(trusted, 9, 0x20),
    ] {
        marked().answers(&packet, &unsupported, FIVE_THREE);
    }
    let mut fresh = marked();
    fresh.kept = Bench::fresh().kept;
    fresh.answers(&trusted, &with(with(unsupported, 4, 0x00), 5, 0x00), None);
}

/// It is done and captures, and clears nothing: neither there nor at B.
#[test]
fn an_ordinary_write_at_a_keeps_every_marked_bit() {
    let mut bench = Bench::fresh();
    for code in SPACES {
        let [bytes, rules, marks] = space(&mut bench, code);
        for (part, byte) in [(bytes, 0xFF), (rules, 0x00), (marks, 0xFF)] {
            *part = lent(&[byte; SPACE]);
        }
    }
    bench.answers(
        &with(with(write(0x44, [0xFF; 4]), 10, 0x01), 11, 0x04),
        &WRITTEN,
        FIVE_THREE,
    );
}

/// As a host does it: an error status bit is read, written 1, and read again.
#[test]
fn an_error_status_bit_of_a_board() {
    let (mut ordinary, mut trusted, rules, mut marks) = ([0; SPACE], [0; SPACE], [0; SPACE], [0; SPACE]);
    (marks[0x007], ordinary[0x007]) = (0xF9, 0xC0);
    let [marked, none] = [&marks, &NO_MARKS].map(|marks| marks.as_slice());
    let description = Description {
        function: 0,
        a: 0x104,
        b: 0x00C,
        edition: Edition::One,
    };
    let lent_space = |bytes, marks| Space {
        bytes,
        rules: &rules,
        marks,
    };
    let mut board = Board::fresh(
        description,
        lent_space(&mut ordinary[..], marked),
        lent_space(&mut trusted[..], none),
    );
    let read = with(TRUSTED_READ, 0, 0x04);
    let data = |board: &mut Board| board.serve(&read).expect("a read").data();
    assert_eq!(data(&mut board), Some([0, 0, 0, 0xC0]));
    board.serve(&write(0x44, [0xFF, 0xFF, 0xFF, 0x40])).expect("a write");
    assert_eq!(data(&mut board), Some([0, 0, 0, 0x80]));
    board.ordinary.rules = marked;
    assert_eq!(board.serve(&read), Err(NotDone::Refused(Refusal::BadDescription)));
}
