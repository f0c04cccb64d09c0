//! Packets that come twice, and writes that are swapped: the same packet at once again is answered alike and leaves what one
//! leaves, at a board, at one of two functions, at a switch and on the asking side; two writes that differ in their enables
//! may come in either order, or as one. And what comes between counts.
#![forbid(unsafe_code)]

mod common;

use common::asking::{HOST, KINDS, id, request};
use common::multicast::Drawn;
use common::pair::{ALTERNATE, PRIMARY, SIDES};
use common::switch::{THREE, TYPES};
use common::{Bench, SPACE, TRUSTED_READ, WRITE, WRITTEN, lent};
use thawribbon::{Board, Capture, Completion, Description, Edition, Function, NotAnswered, NotDone, NotRouted};
use thawribbon::{Pair, Request, Said, Side, Space, TRUSTED_WRITE, TYPE0_READ, TYPE0_WRITE, route};

const PACKETS: usize = 4000;
const EDITIONS: [Edition; 2] = [Edition::One, Edition::Two];
const FIVE_THREE: Option<Capture> = Some(Capture { bus: 0x05, device: 3 });
const FUNCTIONS: [Function; 2] = [
    Function {
        function: 0,
        a: 0x104,
        b: 0x00C,
    },
    Function {
        function: 1,
        a: 0x208,
        b: 0x010,
    },
];

/// Who is sent a packet: the primary as a board by itself, or both functions.
#[derive(Clone, Copy, Debug, PartialEq, Eq)]
enum Whom {
    Board,
    Pair,
}

const WHOM: [Whom; 2] = [Whom::Board, Whom::Pair];

/// What a function lends, and its capture.
#[derive(Clone, Debug, PartialEq, Eq)]
struct State {
    function: Function,
    capture: Option<Capture>,
    ordinary: [Vec<u8>; 3],
    trusted: [Vec<u8>; 3],
}

impl State {
    /// The space that a write of this kind is for, with its rules and its marks.
    fn space_of(&mut self, kind: u8) -> &mut [Vec<u8>; 3] {
        if kind == TYPE0_WRITE {
            &mut self.ordinary
        } else {
            &mut self.trusted
        }
    }
}

/// Two functions of an edition.
#[derive(Clone, Debug, PartialEq, Eq)]
struct Boards {
    edition: Edition,
    states: [State; 2],
}

fn byte(drawn: &mut Drawn) -> u8 {
    drawn.below(256) as u8
}

/// Whether one of so many.
fn once_in(drawn: &mut Drawn, many: u64) -> bool {
    drawn.below(many) == 0
}

/// A space, its rules and its marks, drawn. No bit is in rules and marks.
fn drawn_space(drawn: &mut Drawn) -> [Vec<u8>; 3] {
    let [bytes, rules, mut marks] = [(); 3].map(|()| (0..SPACE).map(|_| byte(drawn)).collect::<Vec<u8>>());
    marks.iter_mut().zip(&rules).for_each(|(mark, rule)| *mark &= !rule);
    [bytes, rules, marks]
}

fn space([bytes, rules, marks]: &mut [Vec<u8>; 3]) -> Space<'_> {
    Space { bytes, rules, marks }
}

impl Boards {
    /// Spaces, rules and marks are drawn; nothing is captured.
    fn drawn(drawn: &mut Drawn, edition: Edition) -> Self {
        let states = FUNCTIONS.map(|function| State {
            function,
            capture: None,
            ordinary: drawn_space(drawn),
            trusted: drawn_space(drawn),
        });
        Boards { edition, states }
    }

    fn serve(&mut self, whom: Whom, packet: &[u8]) -> Result<Completion, NotDone> {
        let edition = self.edition;
        let [primary, alternate] = self.states.each_mut().map(|state| Side {
            description: state.function,
            capture: state.capture,
            ordinary: space(&mut state.ordinary),
            trusted: space(&mut state.trusted),
        });
        let (answer, captures) = match whom {
            Whom::Board => {
                let Function { function, a, b } = primary.description;
                let description = Description {
                    function,
                    a,
                    b,
                    edition,
                };
                let mut board = Board::fresh(description, primary.ordinary, primary.trusted);
                board.capture = primary.capture;
                (board.serve(packet), [board.capture, alternate.capture])
            }
            Whom::Pair => {
                let mut pair = Pair {
                    edition,
                    primary,
                    alternate,
                };
                (pair.serve(packet), [pair.primary.capture, pair.alternate.capture])
            }
        };
        for (state, capture) in self.states.iter_mut().zip(captures) {
            state.capture = capture;
        }
        answer
    }

    fn done(&mut self, whom: Whom, packet: &[u8]) -> Completion {
        self.serve(whom, packet).expect("done")
    }

    /// Written, served and read back.
    fn ask(&mut self, whom: Whom, request: Request) -> Result<Said, NotAnswered> {
        match self.serve(whom, &request.packet()?) {
            Ok(reply) | Err(NotDone::Unsupported(reply)) => Ok(request.answered_by(reply.bytes())?.said()),
            Err(NotDone::Refused(refusal)) => Err(refusal.into()),
        }
    }

    /// A reset of the board.
    fn forget(&mut self) {
        let edition = self.edition;
        let [primary, alternate] = self.states.each_mut().map(|state| Side {
            description: state.function,
            capture: state.capture,
            ordinary: space(&mut state.ordinary),
            trusted: space(&mut state.trusted),
        });
        let mut pair = Pair {
            edition,
            primary,
            alternate,
        };
        pair.reset();
        let captures = [pair.primary.capture, pair.alternate.capture];
        for (state, capture) in self.states.iter_mut().zip(captures) {
            state.capture = capture;
        }
    }
}

/// A packet that is without a fault most of the time, and names one of the functions with one of a few buses and devices.
fn packet(drawn: &mut Drawn) -> Vec<u8> {
    let code = match drawn.below(32) {
        0 => byte(drawn),
        1 | 2 => TYPES[drawn.below(6) as usize] | 0x80,
        _ => TYPES[drawn.below(6) as usize],
    };
    let mut packet: Vec<u8> = (0..20).map(|_| byte(drawn)).collect();
    let functions = if once_in(drawn, 8) { 8 } else { 2 };
    let named = drawn.below(functions) as u8;
    packet[0] = code;
    packet[1] &= if once_in(drawn, 32) { 0xFF } else { 0x8F };
    packet[2] &= if once_in(drawn, 8) { 0xCC } else { 0x0C };
    packet[3] = 1;
    packet[7] &= if once_in(drawn, 32) { 0xFF } else { 0x0F };
    packet[8] = 0x05 + u8::from(once_in(drawn, 8));
    packet[9] = (3 + u8::from(once_in(drawn, 8))) * 8 + named;
    match drawn.below(8) {
        0 => (packet[10], packet[11]) = (0x01, 0x04), // A of the primary
        1 => (packet[10], packet[11]) = (0x00, 0x0C), // B of it
        _ => {}
    }
    let length = match once_in(drawn, 32) {
        true => drawn.below(21) as usize,
        false => 12 + usize::from(code >> 6 & 1) * 4 + usize::from(packet[2] >> 7) * 4,
    };
    packet.truncate(length);
    packet
}

/// Drawn packets, and resets between them: one board gets each once, and the other twice, or more often.
fn is_repeated(whom: Whom, edition: Edition) {
    let mut drawn = Drawn(31);
    let start = Boards::drawn(&mut drawn, edition);
    let [mut once, mut twice] = [start.clone(), start.clone()];
    let mut counted = [0; 3];
    for _ in 0..PACKETS {
        let packet = packet(&mut drawn);
        let answer = once.serve(whom, &packet);
        for _ in 0..2 + drawn.below(8) / 7 * drawn.below(4) {
            assert_eq!(twice.serve(whom, &packet), answer, "{packet:02X?}");
            assert!(once == twice, "{packet:02X?}");
        }
        counted[match answer {
            Ok(_) => 0,
            Err(NotDone::Unsupported(_)) => 1,
            Err(NotDone::Refused(_)) => 2,
        }] += 1;
        if once_in(&mut drawn, 32) {
            once.forget();
            twice.forget();
        }
    }
    assert!(counted.iter().all(|&count| count > 200), "{counted:?}");
    assert!(SIDES.map(|side| once.states[side] != start.states[side]) == [true, whom == Whom::Pair]);
}

#[test]
fn a_packet_at_a_board() {
    EDITIONS
        .into_iter()
        .for_each(|edition| is_repeated(Whom::Board, edition));
}

#[test]
fn a_packet_at_a_board_of_two_functions() {
    EDITIONS
        .into_iter()
        .for_each(|edition| is_repeated(Whom::Pair, edition));
}

/// `raw::serve` and `Board::serve` twice, with every buffer looked at: a reply of every size.
#[test]
fn a_packet_with_a_reply_of_every_size() {
    for size in 0..=20 {
        let mut bench = Bench::fresh();
        bench.reply = lent(&vec![0xEE; size]);
        for _ in 0..2 {
            if size < 16 {
                bench.refuses(&WRITE, 2);
            } else {
                bench.ordinary.expect(0x004, &WRITE[12..]);
                bench.answers(&WRITE, &WRITTEN, FIVE_THREE);
            }
        }
    }
}

/// A switch keeps nothing: a packet leaves twice by the same port with the same bytes, or twice not.
#[test]
fn a_packet_at_a_switch_and_behind_it() {
    let mut drawn = Drawn(32);
    let start = Boards::drawn(&mut drawn, Edition::One);
    let [mut once, mut twice] = [start.clone(), start.clone()];
    let mut counted = [0; 3];
    for _ in 0..PACKETS {
        let mut packet = packet(&mut drawn);
        if let Some(bus) = packet.get_mut(8).filter(|_| once_in(&mut drawn, 4)) {
            *bus = 0x04 + drawn.below(9) as u8;
        }
        let routed = route(&THREE, &packet);
        assert_eq!(route(&THREE, &packet), routed, "{packet:02X?}");
        counted[match routed {
            Ok(_) => 0,
            Err(NotRouted::Unsupported) => 1,
            Err(NotRouted::Refused(_)) => 2,
        }] += 1;
        if let Ok(leaving) = routed {
            let answer = once.serve(Whom::Board, leaving.bytes());
            assert_eq!(twice.serve(Whom::Board, leaving.bytes()), answer);
            assert_eq!(twice.serve(Whom::Board, leaving.bytes()), answer);
            assert!(once == twice, "{packet:02X?}");
        }
    }
    assert!(counted.iter().all(|&count| count > 40), "{counted:?}");
    assert!(once != start);
}

/// The same parts are the same packet, and the same is heard.
#[test]
fn a_request_that_is_asked_again() {
    for (whom, edition) in WHOM
        .into_iter()
        .flat_map(|whom| EDITIONS.map(|edition| (whom, edition)))
    {
        let mut drawn = Drawn(33);
        let start = Boards::drawn(&mut drawn, edition);
        let [mut once, mut twice] = [start.clone(), start.clone()];
        let mut counted = [0; 4];
        for _ in 0..PACKETS {
            let kind = KINDS[drawn.below(6) as usize];
            let offset = if once_in(&mut drawn, 8) {
                0x104
            } else {
                drawn.below(16) as u16 * 4
            };
            let data = drawn.number().to_le_bytes();
            let request = request(
                kind,
                id(0x05, 3, drawn.below(3) as u8),
                offset,
                [0, 1, 2, 3].map(|at| data[at]),
            )
            .by(HOST, byte(&mut drawn))
            .enabling(drawn.below(17) as u8);
            assert_eq!(request.packet(), request.packet());
            let heard = once.ask(whom, request);
            assert_eq!(twice.ask(whom, request), heard, "{request:?}");
            assert_eq!(twice.ask(whom, request), heard, "{request:?}");
            assert!(once == twice, "{request:?}");
            counted[match heard {
                Ok(_) => 0,
                Err(NotAnswered::Unsupported(_)) => 1,
                Err(NotAnswered::Refused(_)) => 2,
                Err(NotAnswered::Other(_)) => 3,
            }] += 1;
        }
        assert!(counted[..3].iter().all(|&count| count > 100), "{counted:?}");
        assert_eq!(counted[3], 0);
    }
}

/// A write of a kind for a function at an offset.
fn write(kind: u8, side: usize, offset: u16, data: [u8; 4], enables: u8, tag: u8) -> [u8; 16] {
    let mut packet = WRITE;
    (packet[0], packet[6], packet[7]) = (kind, tag, enables);
    packet[9] = 0x18 + FUNCTIONS[side].function;
    packet[10..12].copy_from_slice(&offset.to_be_bytes());
    packet[12..].copy_from_slice(&data);
    packet
}

/// Two writes that differ in their enables and tags come in one order, in the other, and as one write with both sets of
/// enables. Tells whether the word has changed.
fn is_swapped(
    boards: &mut [Boards; 3],
    drawn: &mut Drawn,
    whom: Whom,
    side: usize,
    at: (u8, u16),
    enables: [u8; 2],
) -> bool {
    let (kind, offset) = at;
    let word = usize::from(offset)..usize::from(offset) + 4;
    let [old, data] = [(); 2].map(|()| (drawn.number() as u32).to_le_bytes());
    let capture = FIVE_THREE.filter(|_| kind == TRUSTED_WRITE || once_in(drawn, 2));
    for state in boards.iter_mut().map(|boards| &mut boards.states[side]) {
        state.space_of(kind)[0][word.clone()].copy_from_slice(&old);
        state.capture = capture;
    }
    let [one, other] = [0, 1].map(|n| write(kind, side, offset, data, enables[n], n as u8));
    let [first, second, joined] = boards;
    let answers = [first.done(whom, &one), first.done(whom, &other)];
    let swapped = [second.done(whom, &other), second.done(whom, &one)];
    assert_eq!(answers, [swapped[1], swapped[0]], "{one:02X?} and {other:02X?}");
    let both = write(kind, side, offset, data, enables[0] | enables[1], 0);
    assert_eq!(joined.done(whom, &both), answers[0]);
    assert!(first == second && first == joined, "{one:02X?} and {other:02X?}");
    first.states[side].space_of(kind)[0][word] != old
}

/// Every two enables.
fn pairs() -> impl Iterator<Item = [u8; 2]> {
    (0..16).flat_map(|one| (0..16).map(move |other| [one, other]))
}

fn are_swapped(whom: Whom, sides: &[usize]) {
    let mut drawn = Drawn(34);
    for edition in EDITIONS {
        let start = Boards::drawn(&mut drawn, edition);
        let mut boards = [start.clone(), start.clone(), start];
        let mut changed = 0;
        for (enables, &side) in pairs().flat_map(|enables| sides.iter().map(move |side| (enables, side))) {
            for kind in [TYPE0_WRITE, TRUSTED_WRITE] {
                let offset = drawn.below(1024) as u16 * 4;
                let elsewhere = kind == TRUSTED_WRITE || offset != FUNCTIONS[side].a;
                let at = (kind, if elsewhere { offset } else { 0x010 });
                changed += usize::from(is_swapped(&mut boards, &mut drawn, whom, side, at, enables));
            }
        }
        assert!(changed > 400 * sides.len(), "{changed}");
    }
}

#[test]
fn writes_that_are_swapped_or_joined_at_a_board() {
    are_swapped(Whom::Board, &[PRIMARY]);
}

#[test]
fn writes_that_are_swapped_or_joined_at_a_board_of_two_functions() {
    are_swapped(Whom::Pair, &[PRIMARY, ALTERNATE]);
}

#[test]
fn writes_that_are_swapped_or_joined_at_a() {
    let mut drawn = Drawn(35);
    for edition in EDITIONS {
        let start = Boards::drawn(&mut drawn, edition);
        let trusted = start.states.each_ref().map(|state| state.trusted.clone());
        let mut boards = [start.clone(), start.clone(), start];
        for (enables, side) in pairs().flat_map(|enables| SIDES.map(|side| (enables, side))) {
            let at = (TYPE0_WRITE, FUNCTIONS[side].a);
            assert!(!is_swapped(&mut boards, &mut drawn, Whom::Pair, side, at, enables));
            assert_eq!(boards[0].states[side].capture, FIVE_THREE);
            assert!(
                boards[0].states[side].trusted == trusted[side],
                "a write at A went to B"
            );
        }
    }
}

/// Reads, an Unsupported Request and a refusal.
#[test]
fn what_changes_nothing_may_come_between() {
    let mut drawn = Drawn(36);
    let start = Boards::drawn(&mut drawn, Edition::One);
    let [mut once, mut twice] = [start.clone(), start];
    let mut poisoned = WRITE;
    (poisoned[2], poisoned[8]) = (0x40, 0x07);
    for _ in 0..PACKETS {
        let packet = packet(&mut drawn);
        let mut read = TRUSTED_READ;
        read[0] = if once_in(&mut drawn, 2) { TYPE0_READ } else { read[0] };
        (read[10], read[11]) = (byte(&mut drawn), byte(&mut drawn));
        let answer = twice.serve(Whom::Pair, &packet);
        let shown = twice.serve(Whom::Pair, &read);
        assert!(shown.is_ok() || twice.states[PRIMARY].capture != FIVE_THREE);
        assert!(matches!(
            twice.serve(Whom::Pair, &poisoned),
            Err(NotDone::Unsupported(_))
        ));
        assert!(matches!(
            twice.serve(Whom::Pair, &poisoned[..15]),
            Err(NotDone::Refused(_))
        ));
        assert_eq!(twice.serve(Whom::Pair, &packet), answer, "{packet:02X?}");
        assert_eq!(once.serve(Whom::Pair, &packet), answer, "{packet:02X?}");
        assert!(once == twice, "{packet:02X?}");
    }
}

/// A board of edition 1 with this rule and this mark for every bit.
fn ruled(rule: u8, mark: u8) -> Boards {
    let mut boards = Boards::drawn(&mut Drawn(37), Edition::One);
    for state in &mut boards.states {
        for [_, rules, marks] in [&mut state.ordinary, &mut state.trusted] {
            rules.fill(rule);
            marks.fill(mark);
        }
    }
    boards
}

/// A repeat after a newer write, and writes of other data in another order.
#[test]
fn an_old_write_puts_its_data_back() {
    for kind in [TYPE0_WRITE, TRUSTED_WRITE] {
        let mut boards = ruled(0xFF, 0x00);
        boards.states[PRIMARY].capture = FIVE_THREE;
        let [old, newer] = [2, 6].map(|data| write(kind, PRIMARY, 0x010, [data; 4], 0x0F, data));
        let first = boards.done(Whom::Board, &old);
        boards.done(Whom::Board, &newer);
        assert_eq!(boards.states[PRIMARY].space_of(kind)[0][0x010..0x014], [6; 4]);
        assert_eq!(boards.done(Whom::Board, &old), first);
        assert_eq!(boards.states[PRIMARY].space_of(kind)[0][0x010..0x014], [2; 4]);
    }
}

/// A trusted request is unsupported, a read has another completer, and an ordinary write captures its own again.
#[test]
fn another_capture_and_a_reset_between() {
    let mut other = WRITE;
    (other[7], other[8]) = (0x00, 0x06);
    let mut read = TRUSTED_READ;
    read[0] = TYPE0_READ;
    for other in [Some(other), None] {
        let mut boards = ruled(0xFF, 0x00);
        let written = boards.done(Whom::Board, &WRITE);
        let [trusted, ordinary] = [TRUSTED_READ, read].map(|packet| boards.done(Whom::Board, &packet));
        match other {
            Some(other) => assert_eq!(boards.done(Whom::Board, &other).completer(), id(0x06, 3, 0)),
            None => boards.forget(),
        }
        let answer = boards.serve(Whom::Board, &TRUSTED_READ);
        assert!(matches!(answer, Err(NotDone::Unsupported(_))), "{answer:?}");
        let again = boards.done(Whom::Board, &read);
        assert_eq!((again.data(), again.tag()), (ordinary.data(), ordinary.tag()));
        let completer = other.map_or(id(0, 0, 0), |_| id(0x06, 3, 0));
        assert_eq!((again.completer(), ordinary.completer()), (completer, id(0x05, 3, 0)));
        assert_eq!(boards.done(Whom::Board, &WRITE), written);
        assert_eq!(boards.done(Whom::Board, &TRUSTED_READ), trusted);
    }
}

/// The same write with another tag leaves the same, and its completion is no answer to the first request.
#[test]
fn another_tag() {
    let mut boards = ruled(0xFF, 0x00);
    let write = Request::type0_write(id(0x05, 3, 0), 0x010, [1, 2, 3, 4]);
    let [first, second] = [7, 8].map(|tag| write.by(HOST, tag));
    let [one, other] = [first, second].map(|request| {
        let reply = boards.done(Whom::Board, &request.packet().expect("a request"));
        assert_eq!(boards.states[PRIMARY].ordinary[0][0x010..0x014], [1, 2, 3, 4]);
        reply
    });
    assert_eq!(
        (one.bytes()[..10].to_vec(), one.tag()),
        (other.bytes()[..10].to_vec(), 7)
    );
    assert_eq!(first.answered_by(one.bytes()), Ok(one));
    assert_eq!(first.answered_by(other.bytes()), Err(NotAnswered::Other(other)));
}

/// The repeat clears an error that the board has set anew, and the completion does not tell.
#[test]
fn an_error_that_the_board_set_between() {
    let mut boards = ruled(0x00, 0xFF);
    let clears = write(TYPE0_WRITE, PRIMARY, 0x010, [3; 4], 0x0F, 7);
    boards.states[PRIMARY].ordinary[0][0x010..0x014].fill(3);
    let first = boards.done(Whom::Board, &clears);
    assert_eq!(boards.states[PRIMARY].ordinary[0][0x010..0x014], [0; 4]);
    boards.states[PRIMARY].ordinary[0][0x010..0x014].fill(1);
    assert_eq!(boards.done(Whom::Board, &clears), first);
    assert_eq!(boards.states[PRIMARY].ordinary[0][0x010..0x014], [0; 4]);
}
