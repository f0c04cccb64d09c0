//! Request 11/13, sentence by sentence, on the model: a primary and an alternate behind one device.

use super::{Description, Function, ServedByTwo, is_for, serve, serve_pair};

/// What a reply is filled with before it is lent.
const LENT: u8 = 0xEE;
const CODES: [u8; 6] = [0x04, 0x44, 0x05, 0x45, 0x1B, 0x5B];

/// A packet for bus 5, device 3 and a function, at an offset. A write has four bytes of A5h.
fn packet(code: u8, function: u8, offset: usize) -> Vec<u8> {
    let (high, low) = ((offset >> 8) as u8, offset as u8);
    let mut bytes = vec![code, 0, 0, 1, 1, 0, 7, 0x0F, 5, 0x18 | function, high, low];
    bytes.resize(if code & 0x40 == 0 { 12 } else { 16 }, 0xA5);
    bytes
}

/// One function: its number, A and B, its capture, and its spaces, each with rules and marks.
#[derive(Clone, Debug, PartialEq)]
struct Side {
    number: u8,
    a: u32,
    b: u32,
    kept: Option<(u8, u8)>,
    ordinary: [Vec<u8>; 3],
    trusted: [Vec<u8>; 3],
}

impl Side {
    fn new(number: u8, a: u32, b: u32, kept: Option<(u8, u8)>, [ordinary, trusted]: [u8; 2]) -> Self {
        let space = |byte| [vec![byte; 4096], vec![0x0F; 4096], vec![0x30; 4096]];
        Self {
            number,
            a,
            b,
            kept,
            ordinary: space(ordinary),
            trusted: space(trusted),
        }
    }

    fn lent(&mut self) -> Function<'_> {
        let [ordinary, ordinary_rules, ordinary_marks] = &mut self.ordinary;
        let [trusted, trusted_rules, trusted_marks] = &mut self.trusted;
        Function {
            number: self.number,
            a: self.a,
            b: self.b,
            kept: self.kept,
            ordinary,
            ordinary_rules,
            ordinary_marks,
            trusted,
            trusted_rules,
            trusted_marks,
        }
    }

    /// What a board of this one function answers: its number, its length and its reply.
    fn alone(&mut self, edition: u32, packet: &[u8]) -> (u8, usize, [u8; 16]) {
        let mut reply = [LENT; 16];
        let description = Description {
            function: self.number,
            a: self.a,
            b: self.b,
            edition,
        };
        let [ordinary, ordinary_rules, ordinary_marks] = &mut self.ordinary;
        let [trusted, trusted_rules, trusted_marks] = &mut self.trusted;
        let served = serve(
            description,
            self.kept,
            ordinary,
            ordinary_rules,
            ordinary_marks,
            trusted,
            trusted_rules,
            trusted_marks,
            packet,
            &mut reply,
        );
        self.kept = served.capture;
        (served.number, served.length, reply)
    }
}

/// A primary with number 2 and an alternate with number 6. Both have captured bus 5, the primary with device 3 and the
/// alternate with device 4.
#[derive(Clone, Debug, PartialEq)]
struct Board {
    edition: u32,
    sides: [Side; 2],
    reply: [u8; 16],
}

impl Board {
    fn new() -> Self {
        Self {
            edition: 1,
            sides: [
                Side::new(2, 0x104, 0x00C, Some((5, 3)), [0xFA, 0xF5]),
                Side::new(6, 0x204, 0x10C, Some((5, 4)), [0xBA, 0xB5]),
            ],
            reply: [LENT; 16],
        }
    }

    /// One of which neither function has captured anything.
    fn fresh() -> Self {
        let mut board = Self::new();
        for side in &mut board.sides {
            side.kept = None;
        }
        board
    }

    fn serve(&mut self, packet: &[u8]) -> ServedByTwo {
        self.serve_into(packet, 16)
    }

    /// Serves with so many bytes of the reply, and keeps what is captured then.
    fn serve_into(&mut self, packet: &[u8], room: usize) -> ServedByTwo {
        let functions = self.sides.each_mut().map(Side::lent);
        let served = serve_pair(self.edition, functions, packet, &mut self.reply[..room]);
        for (side, capture) in self.sides.iter_mut().zip(served.captures) {
            side.kept = capture;
        }
        served
    }

    /// Serves a packet on a copy, which has to be refused with a number, and all has to be left as it was.
    fn expect_refused(&self, packet: &[u8], room: usize, number: u8) {
        let mut copy = self.clone();
        let served = copy.serve_into(packet, room);
        assert_eq!((served.number, served.length), (number, 0), "{packet:02x?}");
        assert_eq!(&copy, self, "{packet:02x?}");
    }

    /// Serves a packet on a copy, which has to get UR with the primary's ID, and nothing but the reply has to change.
    fn expect_declined(&self, packet: &[u8], completer: [u8; 2]) {
        let mut copy = self.clone();
        let served = copy.serve(packet);
        assert_eq!((served.number, served.length), (0, 12), "{packet:02x?}");
        let [bus, device] = completer;
        let due = [0x0A, 0, 0, 0, bus, device, 0x20, 4, 1, 0, 7, 0];
        assert_eq!((&copy.reply[..12], &copy.reply[12..]), (&due[..], &[LENT; 4][..]));
        assert_eq!(copy.sides, self.sides);
    }
}

#[test]
fn equal_numbers_are_1() {
    for (primary, alternate) in (0..8).flat_map(|primary| (0..8).map(move |alternate| (primary, alternate))) {
        let mut board = Board::new();
        (board.sides[0].number, board.sides[1].number) = (primary, alternate);
        if primary == alternate {
            for function in 0..8 {
                board.expect_refused(&packet(0x04, function, 0x010), 16, 1);
                board.expect_refused(&packet(0x05, function, 0x010), 15, 1);
            }
            board.expect_refused(&[], 16, 1);
        } else {
            assert_eq!(board.serve(&packet(0x04, primary, 0x010)).number, 0);
        }
    }
}

/// All that makes one function badly described by itself.
const FAULTS: [fn(&mut Side); 16] = [
    |side| side.number = 8,
    |side| side.number |= 0x80,
    |side| side.a = 0x100,
    |side| side.a = 0x1000,
    |side| side.a += 1,
    |side| side.b = 0x008,
    |side| side.b = 0x1000,
    |side| side.b += 2,
    |side| side.kept = Some((5, 32)),
    |side| side.ordinary[0].truncate(4095),
    |side| side.ordinary[1].push(0),
    |side| side.ordinary[2].truncate(0),
    |side| side.trusted[0].push(0),
    |side| side.trusted[1].truncate(4095),
    |side| side.trusted[2].push(0),
    |side| side.trusted[2][4095] |= 0x01,
];

#[test]
fn either_function_badly_described_is_1_whomever_the_packet_is_for() {
    for (fault, side) in FAULTS.iter().flat_map(|fault| [(fault, 0), (fault, 1)]) {
        let mut board = Board::new();
        fault(&mut board.sides[side]);
        for (code, function) in CODES
            .iter()
            .flat_map(|&code| [2, 6, 0].map(|function| (code, function)))
        {
            board.expect_refused(&packet(code, function, 0x010), 16, 1);
        }
        board.expect_refused(&[], 0, 1);
        fault(&mut board.sides[1 - side]);
        board.expect_refused(&packet(0x04, 2, 0x010), 16, 1);
    }
}

#[test]
fn there_is_one_edition() {
    for edition in [0, 3, 0x101, 0x8000_0002] {
        let board = Board {
            edition,
            ..Board::new()
        };
        board.expect_refused(&packet(0x04, 2, 0x010), 16, 1);
        board.expect_refused(&packet(0x04, 6, 0x010), 16, 1);
    }
    for (code, function) in CODES
        .iter()
        .flat_map(|&code| [2, 6, 0].map(|function| (code, function)))
    {
        let with = packet(code | 0x80, function, 0x010);
        let second = Board {
            edition: 2,
            ..Board::new()
        };
        second.expect_refused(&with, 16, 4);
        let [mut one, mut other] = [Board::new(), Board::new()];
        assert_eq!(one.serve(&with), other.serve(&packet(code, function, 0x010)));
        assert_eq!(one, other);
    }
}

#[test]
fn a_reply_under_16_bytes_is_2_before_3_to_6() {
    for room in 0..16 {
        for (code, function) in CODES
            .iter()
            .flat_map(|&code| [2, 6, 0].map(|function| (code, function)))
        {
            Board::new().expect_refused(&packet(code, function, 0x010), room, 2);
        }
        Board::new().expect_refused(&[], room, 2);
        Board::new().expect_refused(&packet(0x00, 2, 0x010), room, 2);
    }
}

#[test]
fn a_fault_of_3_to_6_gets_that_number_whatever_byte_9_names() {
    for function in 0..8 {
        for code in CODES {
            let right = packet(code, function, 0x010);
            for length in 0..12 {
                Board::new().expect_refused(&right[..length], 16, 3);
            }
            Board::new().expect_refused(&[&right[..], &[0]].concat(), 16, 5);
            let mut wrong = right;
            wrong[7] |= 0x10;
            Board::new().expect_refused(&wrong, 16, 6);
        }
        Board::new().expect_refused(&packet(0x00, function, 0x010), 16, 4);
    }
}

/// "A packet goes to the function it names in byte 9", and is served as that function by itself serves it.
#[test]
fn each_function_serves_as_a_board_of_its_own() {
    for edition in [1, 2] {
        let mut board = Board {
            edition,
            ..Board::new()
        };
        let mut alone = board.sides.clone();
        let offsets = [0x00C, 0x010, 0x104, 0x10C, 0x204, 0xFFC];
        let asked = offsets
            .iter()
            .flat_map(|&at| [0x04, 0x44, 0x1B, 0x5B].map(|code| (code, at)));
        for ((code, at), side) in asked.flat_map(|asked| [(asked, 0), (asked, 1), (asked, 0)]) {
            let packet = packet(code, alone[side].number, at);
            board.reply = [LENT; 16];
            let served = board.serve(&packet);
            let (number, length, reply) = alone[side].alone(edition, &packet);
            assert_eq!((served.number, served.length, board.reply), (number, length, reply));
            assert_eq!(board.sides, alone, "{packet:02x?}");
        }
    }
}

#[test]
fn each_function_has_its_own_capture() {
    let mut board = Board::fresh();
    let captures = |board: &Board| board.sides.each_ref().map(|side| side.kept);
    board.serve(&packet(0x44, 6, 0x010));
    assert_eq!(captures(&board), [None, Some((5, 3))]);
    board.serve(&packet(0x1B, 2, 0x010));
    assert_eq!(board.reply[6], 0x20);
    board.serve(&packet(0x1B, 6, 0x010));
    assert_eq!((board.reply[6], board.reply[12]), (0x00, 0xB5));
    board.serve(&packet(0x44, 2, 0x010));
    assert_eq!(captures(&board), [Some((5, 3)); 2]);
    let mut elsewhere = packet(0x44, 2, 0x010);
    elsewhere[8] = 9;
    board.serve(&elsewhere);
    assert_eq!(captures(&board), [Some((9, 3)), Some((5, 3))]);
}

/// A trusted request is held against the capture of the function that it names, and not against the other's.
#[test]
fn a_trusted_request_with_the_other_functions_numbers_is_unsupported() {
    for (side, function, others) in [(0, 2, 0x20), (1, 6, 0x18)] {
        let mut board = Board::new();
        let mut trusted = packet(0x5B, function, 0x010);
        trusted[9] = others | function;
        board.serve(&trusted);
        assert_eq!(board.reply[6], 0x20);
        assert_eq!(board.sides, Board::new().sides);
        let own = board.sides[side].kept.map_or(0, |(_, device)| device);
        assert_eq!(&board.reply[4..6], &[5, own << 3 | function]);
    }
}

#[test]
fn each_function_has_its_own_correlation_word() {
    let mut board = Board::new();
    for (function, at, byte) in [(2, 0x104, 0xF5), (2, 0x204, 0xFA), (6, 0x204, 0xB5), (6, 0x104, 0xBA)] {
        board.serve(&packet(0x04, function, at));
        assert_eq!(&board.reply[12..], &[byte; 4]);
    }
    board.serve(&packet(0x44, 6, 0x204));
    assert_eq!(board.sides[1].ordinary[0], vec![0xBA; 4096]);
    board.serve(&packet(0x44, 2, 0x204));
    assert_eq!(&board.sides[0].ordinary[0][0x204..0x208], &[0xD5; 4]);
}

#[test]
fn a_type_1_request_or_one_for_neither_gets_ur_with_the_primarys_completer_id() {
    for function in 0..8 {
        for code in [0x05, 0x45] {
            Board::new().expect_declined(&packet(code, function, 0x010), [5, 0x1A]);
            Board::fresh().expect_declined(&packet(code, function, 0x010), [0, 2]);
        }
        for code in [0x04, 0x44, 0x1B, 0x5B]
            .into_iter()
            .filter(|_| ![2, 6].contains(&function))
        {
            Board::new().expect_declined(&packet(code, function, 0x010), [5, 0x1A]);
            Board::fresh().expect_declined(&packet(code, function, 0x010), [0, 2]);
        }
    }
    let mut board = Board::fresh();
    board.sides[1].kept = Some((9, 31));
    board.expect_declined(&packet(0x04, 0, 0x010), [0, 2]);
    board.expect_declined(&packet(0x45, 6, 0x010), [0, 2]);
}

#[test]
fn faulty_packets_and_type_1_count_as_for_neither() {
    for edition in [1, 2] {
        for function in 0..8 {
            let due = [2, 6].iter().position(|&number| number == function);
            for code in CODES {
                let packet = packet(code, function, 0x010);
                let own = if code & 0x3F == 0x05 { None } else { due };
                assert_eq!(is_for(&packet, edition, [2, 6]), own);
                assert_eq!(is_for(&packet[..11], edition, [2, 6]), None);
                let mut bit_7 = packet;
                bit_7[0] |= 0x80;
                assert_eq!(is_for(&bit_7, edition, [2, 6]), if edition == 1 { own } else { None });
                bit_7[3] = 0;
                assert_eq!(is_for(&bit_7, edition, [2, 6]), None);
            }
            assert_eq!(is_for(&packet(0x00, function, 0x010), edition, [2, 6]), None);
        }
    }
}

/// What two runs have in common is told of the alternate, and then of the primary: packets for the other function come
/// in the second run only.
#[test]
fn packets_for_one_function_change_nothing_of_the_other() {
    for side in [0, 1] {
        let [mut one, mut other] = [Board::new(), Board::new()];
        let [own, changed] = [one.sides[side].number, one.sides[1 - side].number];
        for (code, at) in [0x44, 0x04, 0x5B, 0x1B]
            .iter()
            .flat_map(|&code| [0x010, 0x204].map(|at| (code, at)))
        {
            for code in [0x44, 0x5B, 0x04] {
                let mut elsewhere = packet(code, changed, at);
                elsewhere[8] ^= code;
                other.serve(&elsewhere);
            }
            let shared = packet(code, own, at);
            let (first, second) = (one.serve(&shared), other.serve(&shared));
            assert_eq!((first.number, first.length), (second.number, second.length));
            assert_eq!(one.reply[..first.length], other.reply[..first.length]);
            assert_eq!(one.sides[side], other.sides[side]);
        }
        assert_ne!(one.sides[1 - side], other.sides[1 - side]);
    }
}
