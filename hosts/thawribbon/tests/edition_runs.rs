//! Boards that differ in their edition alone, side by side: runs of packets with bit 7 of byte 0 clear and set, what a
//! switch lets through, and what a request writes.
#![forbid(unsafe_code)]

mod common;

use common::SPACE;
use common::asking::{KINDS, TARGET, id, request};
use common::multicast::Drawn;
use common::switch::{TYPES, port};
use thawribbon::{
    Board, Capture, Completion, Description, Edition, NotAnswered, NotDone, Refusal, Request, Said, Space, route,
};

const BIT_7: u8 = 0x80;
const PACKETS: usize = 4000;

/// A byte that looks random.
fn byte(drawn: &mut Drawn) -> u8 {
    drawn.below(256) as u8
}

/// Whether one of so many.
fn once_in(drawn: &mut Drawn, many: u64) -> bool {
    drawn.below(many) == 0
}

/// What changes in a board: its capture and its spaces.
#[derive(Clone, Debug, PartialEq, Eq)]
struct State {
    capture: Option<Capture>,
    ordinary: Vec<u8>,
    trusted: Vec<u8>,
}

/// What all boards of a run have in common: where they begin, and the rules and marks of both spaces.
struct Run {
    start: State,
    rules: Vec<u8>,
    marks: Vec<u8>,
}

impl Run {
    /// Spaces, rules and marks that look random. No bit is in rules and marks.
    fn drawn(drawn: &mut Drawn) -> Self {
        let mut bytes = || (0..SPACE).map(|_| byte(drawn)).collect::<Vec<u8>>();
        let start = State {
            capture: None,
            ordinary: bytes(),
            trusted: bytes(),
        };
        let (rules, others) = (bytes(), bytes());
        let marks = rules.iter().zip(others).map(|(rule, other)| other & !rule).collect();
        Run { start, rules, marks }
    }

    /// A board of an edition in a state. It stays there between packets.
    fn board<'a>(&'a self, edition: Edition, state: &'a mut State) -> Board<'a> {
        let space = |bytes: &'a mut Vec<u8>| Space {
            bytes,
            rules: &self.rules,
            marks: &self.marks,
        };
        Board {
            description: Description {
                function: 0,
                a: 0x104,
                b: 0x00C,
                edition,
            },
            capture: state.capture,
            ordinary: space(&mut state.ordinary),
            trusted: space(&mut state.trusted),
        }
    }
}

/// A packet with bit 7 clear, for 05h, device 3 and function 0 most of the time.
fn packet(drawn: &mut Drawn) -> Vec<u8> {
    let code = match once_in(drawn, 16) {
        true => byte(drawn) & !BIT_7,
        false => TYPES[drawn.below(6) as usize],
    };
    let mut packet: Vec<u8> = (0..20).map(|_| byte(drawn)).collect();
    packet[0] = code;
    packet[1] &= 0x8F;
    packet[2] &= if once_in(drawn, 4) { 0xCC } else { 0x0C };
    packet[3] = 1;
    if !once_in(drawn, 8) {
        (packet[7], packet[8], packet[9]) = (packet[7] & 0x0F, 0x05, 0x18);
    }
    let length = 12 + usize::from(code >> 6 & 1) * 4 + usize::from(packet[2] >> 7) * 4;
    packet.truncate(if once_in(drawn, 8) {
        drawn.below(21) as usize
    } else {
        length
    });
    packet
}

/// Whether both boards are alike, but for the edition.
fn are_alike(one: &Board, two: &Board) -> bool {
    one.capture == two.capture && one.ordinary.bytes == two.ordinary.bytes && one.trusted.bytes == two.trusted.bytes
}

/// How often each happened: done, unsupported, refused.
#[derive(Default)]
struct Counted([usize; 3]);

impl Counted {
    fn count(&mut self, answer: Result<Completion, NotDone>) {
        self.0[match answer {
            Ok(_) => 0,
            Err(NotDone::Unsupported(_)) => 1,
            Err(NotDone::Refused(_)) => 2,
        }] += 1;
    }
}

/// The empty packet among them, and resets between.
#[test]
fn packets_with_bit_7_clear_are_answered_alike() {
    let mut drawn = Drawn(9);
    let run = Run::drawn(&mut drawn);
    let [mut first, mut second] = [run.start.clone(), run.start.clone()];
    let mut one = run.board(Edition::One, &mut first);
    let mut two = run.board(Edition::Two, &mut second);
    let mut counted = Counted::default();
    for _ in 0..PACKETS {
        let packet = packet(&mut drawn);
        if once_in(&mut drawn, 16) {
            one.reset();
            two.reset();
        }
        let answer = one.serve(&packet);
        assert_eq!(two.serve(&packet), answer, "{packet:02X?}");
        assert!(are_alike(&one, &two), "{packet:02X?}");
        counted.count(answer);
    }
    assert!(counted.0.iter().all(|&count| count > 400), "{:?}", counted.0);
    assert!(first.ordinary != run.start.ordinary && first.trusted != run.start.trusted);
}

/// Edition 1 answers a packet with bit 7 as another board of edition 1 answers it without.
#[test]
fn edition_1_answers_as_if_bit_7_were_clear() {
    let mut drawn = Drawn(10);
    let run = Run::drawn(&mut drawn);
    let [mut first, mut second] = [run.start.clone(), run.start.clone()];
    let mut with = run.board(Edition::One, &mut first);
    let mut without = run.board(Edition::One, &mut second);
    let mut counted = Counted::default();
    for _ in 0..PACKETS {
        let cleared = packet(&mut drawn);
        let mut packet = cleared.clone();
        packet.iter_mut().take(1).for_each(|byte_0| *byte_0 |= BIT_7);
        let answer = with.serve(&packet);
        assert_eq!(answer, without.serve(&cleared), "{packet:02X?}");
        assert!(are_alike(&with, &without), "{packet:02X?}");
        counted.count(answer);
    }
    assert!(counted.0.iter().all(|&count| count > 400), "{:?}", counted.0);
}

/// Edition 2 refuses what has 12 bytes or more and bit 7 set with 4. It is then as a board that was never sent it, and
/// answers all else as one of edition 1.
#[test]
fn edition_2_refuses_bit_7_and_nothing_else() {
    let mut drawn = Drawn(11);
    let run = Run::drawn(&mut drawn);
    let [mut first, mut second] = [run.start.clone(), run.start.clone()];
    let mut two = run.board(Edition::Two, &mut first);
    let mut never_sent = run.board(Edition::One, &mut second);
    let mut refused = 0;
    for _ in 0..PACKETS {
        let mut packet = packet(&mut drawn);
        let bit_7 = byte(&mut drawn) & BIT_7;
        packet.iter_mut().take(1).for_each(|byte_0| *byte_0 |= bit_7);
        let answer = two.serve(&packet);
        if packet.len() >= 12 && bit_7 != 0 {
            assert_eq!(answer, Err(NotDone::Refused(Refusal::UnknownType)), "{packet:02X?}");
            refused += 1;
        } else {
            assert_eq!(answer, never_sent.serve(&packet), "{packet:02X?}");
        }
        assert!(are_alike(&two, &never_sent), "{packet:02X?}");
    }
    assert!((1000..3000).contains(&refused), "{refused}");
    assert!(first.ordinary != run.start.ordinary && first.trusted != run.start.trusted);
}

/// A switch has no edition. It lets bit 7 through, and no other bit of a trusted packet alters either: edition 1 serves what
/// comes, and edition 2 refuses it with 4.
#[test]
fn what_a_switch_lets_through_with_bit_7() {
    let run = Run::drawn(&mut Drawn(12));
    let [mut first, mut second] = [run.start.clone(), run.start.clone()];
    let mut one = run.board(Edition::One, &mut first);
    let mut two = run.board(Edition::Two, &mut second);
    let ports = [port(0x05, 0x05, true)];
    // A Type 1 write, which captures, a Type 1 read, a trusted write and a trusted read; and as what they leave.
    let sent = [(0x45, 0x44), (0x05, 0x04), (0x5B, 0x5B), (0x1B, 0x1B)];
    for (bit_7, (code, leaves_as)) in [BIT_7, 0].into_iter().flat_map(|bit| sent.map(|codes| (bit, codes))) {
        let packet = common::switch::request(code | bit_7, 0x00, 0x05);
        let leaving = route(&ports, &packet).expect("the port has the bus");
        assert_eq!(
            (leaving.bytes()[0], &leaving.bytes()[1..]),
            (leaves_as | bit_7, &packet[1..])
        );
        let answer = one.serve(leaving.bytes());
        assert!(answer.is_ok(), "{answer:?}");
        if bit_7 == 0 {
            assert_eq!(two.serve(leaving.bytes()), answer);
        } else {
            assert_eq!(two.serve(leaving.bytes()), Err(NotDone::Refused(Refusal::UnknownType)));
            assert_eq!(two.capture, None);
            assert_eq!(
                (&*two.ordinary.bytes, &*two.trusted.bytes),
                (&run.start.ordinary[..], &run.start.trusted[..])
            );
        }
    }
    assert!(are_alike(&one, &two));
    assert_eq!(one.capture, Some(Capture { bus: 0x05, device: 3 }));
}

/// Further down a switch passes a Type 1 packet on as it is, with bit 7 and without.
#[test]
fn a_switch_passes_bit_7_on_further_down() {
    for code in [0x05, 0x45, 0x1B, 0x5B]
        .into_iter()
        .flat_map(|code| [code, code | BIT_7])
    {
        let packet = common::switch::request(code, 0x80, 0x06);
        let leaving = route(&[port(0x05, 0x07, true)], &packet).expect("the port has the bus");
        assert_eq!(leaving.bytes(), packet);
    }
}

/// Written, served and read back.
fn ask(board: &mut Board, request: Request) -> Result<Said, NotAnswered> {
    let packet = request.packet()?;
    assert_eq!(packet[0], request.kind.code());
    assert!(packet[0] < BIT_7);
    let (Ok(completion) | Err(NotDone::Unsupported(completion))) = board.serve(&packet) else {
        panic!("{request:?} is refused")
    };
    Ok(request.answered_by(completion.bytes())?.said())
}

#[test]
fn what_a_request_writes_is_answered_alike() {
    let mut drawn = Drawn(13);
    let run = Run::drawn(&mut drawn);
    let [mut first, mut second] = [run.start.clone(), run.start.clone()];
    let mut one = run.board(Edition::One, &mut first);
    let mut two = run.board(Edition::Two, &mut second);
    let mut counted = [0; 2];
    for _ in 0..PACKETS {
        let offset = [0x000, 0x004, 0x00C, 0x104, 0x804, 0xFFC][drawn.below(6) as usize];
        let data = [0; 4].map(|_: u8| byte(&mut drawn));
        let target = match drawn.below(8) {
            0 => id(0x06, 3, 0),
            1 => id(0x05, 3, drawn.below(8) as u8),
            _ => TARGET,
        };
        let request = request(KINDS[drawn.below(6) as usize], target, offset, data)
            .by([0x01, 0x00], byte(&mut drawn))
            .enabling(byte(&mut drawn) & 0x0F);
        let heard = ask(&mut one, request);
        assert_eq!(ask(&mut two, request), heard, "{request:?}");
        assert!(are_alike(&one, &two), "{request:?}");
        counted[usize::from(heard.is_err())] += 1;
    }
    assert!(counted.iter().all(|&count| count > 400), "{counted:?}");
    assert!(first.ordinary != run.start.ordinary && first.trusted != run.start.trusted);
}

/// The edition of a board may be set between packets, as every other field.
#[test]
fn an_edition_that_changes_counts_from_the_next_packet_on() {
    let run = Run::drawn(&mut Drawn(14));
    let mut state = run.start.clone();
    let mut board = run.board(Edition::Two, &mut state);
    let read = common::switch::request(0x04 | BIT_7, 0x00, 0x05);
    for edition in [Edition::Two, Edition::One, Edition::Two] {
        board.description.edition = edition;
        let answer = board.serve(&read).map(|completion| completion.data().map(Vec::from));
        let expected = match edition {
            Edition::One => Ok(Some(run.start.ordinary[0x004..0x008].to_vec())),
            Edition::Two => Err(NotDone::Refused(Refusal::UnknownType)),
        };
        assert_eq!(answer, expected, "{edition}");
    }
}
