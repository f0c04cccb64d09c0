//! Boards of two functions over runs of drawn packets: each function answers as a board by itself, and nothing that is sent to
//! one of them, and nothing that it begins with, shows at the other.
#![forbid(unsafe_code)]

mod common;

use common::SPACE;
use common::multicast::Drawn;
use common::pair::{ALTERNATE, PRIMARY, SIDES, other};
use common::switch::TYPES;
use thawribbon::{
    Board, Capture, Completion, Description, Edition, Function, NotDone, Pair, Refusal, Side, Space, Status,
};

const PACKETS: usize = 4000;
const FUNCTIONS: [u8; 2] = [2, 5];
const EDITIONS: [Edition; 2] = [Edition::One, Edition::Two];

/// What a function lends, and its capture.
#[derive(Clone, Debug, PartialEq, Eq)]
struct State {
    function: Function,
    capture: Option<Capture>,
    ordinary: [Vec<u8>; 3],
    trusted: [Vec<u8>; 3],
}

/// Whether one of so many.
fn once_in(drawn: &mut Drawn, many: u64) -> bool {
    drawn.below(many) == 0
}

fn byte(drawn: &mut Drawn) -> u8 {
    drawn.below(256) as u8
}

/// A space, its rules and its marks, drawn. No bit is in rules and marks.
fn drawn_space(drawn: &mut Drawn) -> [Vec<u8>; 3] {
    let [bytes, rules, mut marks] = [(); 3].map(|()| (0..SPACE).map(|_| byte(drawn)).collect::<Vec<u8>>());
    marks.iter_mut().zip(&rules).for_each(|(mark, rule)| *mark &= !rule);
    [bytes, rules, marks]
}

/// A function with this number that has captured nothing, all else of it drawn.
fn drawn_state(drawn: &mut Drawn, function: u8) -> State {
    let function = Function {
        function,
        a: 0x104 + drawn.below(900) as u16 * 4,
        b: 0x00C + drawn.below(1000) as u16 * 4,
    };
    let [ordinary, trusted] = [(); 2].map(|()| drawn_space(drawn));
    State {
        function,
        capture: None,
        ordinary,
        trusted,
    }
}

fn space([bytes, rules, marks]: &mut [Vec<u8>; 3]) -> Space<'_> {
    Space { bytes, rules, marks }
}

/// A board of two functions in these states.
struct Run {
    edition: Edition,
    states: [State; 2],
}

impl Run {
    /// Has the pair do something, and keeps what it captures.
    fn with<T>(&mut self, act: impl FnOnce(&mut Pair) -> T) -> T {
        let [primary, alternate] = self.states.each_mut().map(|state| Side {
            description: state.function,
            capture: state.capture,
            ordinary: space(&mut state.ordinary),
            trusted: space(&mut state.trusted),
        });
        let mut pair = Pair {
            edition: self.edition,
            primary,
            alternate,
        };
        let done = act(&mut pair);
        let captures = [pair.primary.capture, pair.alternate.capture];
        for (state, capture) in self.states.iter_mut().zip(captures) {
            state.capture = capture;
        }
        done
    }

    fn serve(&mut self, packet: &[u8]) -> Result<Completion, NotDone> {
        self.with(|pair| pair.serve(packet))
    }

    /// One of the functions serves a packet, as a board by itself.
    fn serve_alone(&mut self, side: usize, packet: &[u8]) -> Result<Completion, NotDone> {
        let state = &mut self.states[side];
        let Function { function, a, b } = state.function;
        let edition = self.edition;
        let mut board = Board::fresh(
            Description {
                function,
                a,
                b,
                edition,
            },
            space(&mut state.ordinary),
            space(&mut state.trusted),
        );
        board.capture = state.capture;
        let answer = board.serve(packet);
        state.capture = board.capture;
        answer
    }
}

/// A packet that is without a fault most of the time, and names one of the functions with one of a few buses and devices.
fn packet(drawn: &mut Drawn) -> Vec<u8> {
    let code = match drawn.below(32) {
        0 => byte(drawn),
        1 | 2 => TYPES[drawn.below(6) as usize] | 0x80,
        _ => TYPES[drawn.below(6) as usize],
    };
    let mut packet: Vec<u8> = (0..20).map(|_| byte(drawn)).collect();
    let named = match once_in(drawn, 8) {
        true => drawn.below(8) as u8,
        false => FUNCTIONS[drawn.below(2) as usize],
    };
    packet[0] = code;
    packet[1] &= if once_in(drawn, 32) { 0xFF } else { 0x8F };
    packet[2] &= if once_in(drawn, 8) { 0xCC } else { 0x0C };
    packet[3] = 1;
    packet[7] &= if once_in(drawn, 32) { 0xFF } else { 0x0F };
    packet[8] = 0x05 + drawn.below(2) as u8;
    packet[9] = (3 + drawn.below(2) as u8) * 8 + named;
    let length = match once_in(drawn, 32) {
        true => drawn.below(21) as usize,
        false => 12 + usize::from(code >> 6 & 1) * 4 + usize::from(packet[2] >> 7) * 4,
    };
    packet.truncate(length);
    packet
}

/// Whom a packet is for: one of the functions, or neither.
fn whom(edition: Edition, packet: &[u8]) -> Option<usize> {
    let code = packet.first()? & 0x7F;
    let whole = || 12 + usize::from(code >> 6) * 4 + usize::from(packet[2] >> 7) * 4;
    let is_one = packet.len() >= 12
        && TYPES.contains(&code)
        && (edition == Edition::One || packet[0] < 0x80)
        && packet.len() == whole()
        && packet[1] & 0x70 == 0
        && packet[2] & 0x33 == 0
        && packet[3] == 1
        && packet[7] & 0xF0 == 0;
    let named = || FUNCTIONS.iter().position(|&function| function == packet[9] & 7);
    (is_one && code & 0x3F != 0x05).then(named).flatten()
}

/// An answer, with the completer left out or not: the status and the completion, or the refusal.
fn told(answer: Result<Completion, NotDone>, with_completer: bool) -> Result<(Status, Vec<u8>), Refusal> {
    match answer {
        Ok(completion) | Err(NotDone::Unsupported(completion)) => {
            let mut bytes = completion.bytes().to_vec();
            if !with_completer {
                bytes[4..6].fill(0);
            }
            Ok((completion.status(), bytes))
        }
        Err(NotDone::Refused(refusal)) => Err(refusal),
    }
}

#[test]
fn each_function_answers_as_a_board_by_itself() {
    for edition in EDITIONS {
        let mut drawn = Drawn(11);
        let states = FUNCTIONS.map(|function| drawn_state(&mut drawn, function));
        let [mut together, mut alone] = [(); 2].map(|()| Run {
            edition,
            states: states.clone(),
        });
        let mut done = [0; 3];
        for _ in 0..PACKETS {
            let packet = packet(&mut drawn);
            let named = whom(edition, &packet);
            let answer = together.serve(&packet);
            assert_eq!(
                answer,
                alone.serve_alone(named.unwrap_or(PRIMARY), &packet),
                "{packet:02X?}"
            );
            assert!(together.states == alone.states, "{packet:02X?}");
            done[named.unwrap_or(2)] += usize::from(answer.is_ok());
            if once_in(&mut drawn, 64) {
                together.with(|pair| pair.reset());
                alone.states.iter_mut().for_each(|state| state.capture = None);
                assert!(together.states == alone.states);
            }
        }
        assert!(done[PRIMARY] > 400 && done[ALTERNATE] > 400 && done[2] == 0, "{done:?}");
    }
}

/// Sends packets for this function, and no others: a few, or none. How many were done.
fn send_some(run: &mut Run, drawn: &mut Drawn, changed: usize) -> usize {
    let mut packets: Vec<_> = (0..drawn.below(8)).map(|_| packet(drawn)).collect();
    packets.retain(|packet| whom(run.edition, packet) == Some(changed));
    packets.iter().filter(|packet| run.serve(packet).is_ok()).count()
}

/// Two runs that differ in where one function begins and in the packets for it. The other is in the same state after every
/// event, and what is for it, or for neither, is answered alike; where the primary is the changed one, but for the completer
/// ID of what is for neither.
fn is_isolated(changed: usize, edition: Edition) {
    let mut drawn = Drawn(12);
    let same = other(changed);
    let [first, second] = [(); 2].map(|()| FUNCTIONS.map(|function| drawn_state(&mut drawn, function)));
    let [mut left, mut right] = [first, second].map(|states| Run { edition, states });
    right.states[same] = left.states[same].clone();
    right.states[changed].capture = Some(Capture { bus: 0x05, device: 3 });
    let (mut compared, mut changes, mut differ) = (0, 0, 0);
    for _ in 0..PACKETS {
        let packet = packet(&mut drawn);
        for run in [&mut left, &mut right] {
            changes += send_some(run, &mut drawn, changed);
        }
        assert!(left.states[same] == right.states[same]);
        if once_in(&mut drawn, 32) {
            left.with(|pair| pair.reset());
            right.with(|pair| pair.reset());
        }
        let named = whom(edition, &packet);
        if named != Some(changed) {
            let answers = [left.serve(&packet), right.serve(&packet)];
            let with_completer = named == Some(same) || same == PRIMARY;
            let [one, two] = answers.map(|answer| told(answer, with_completer));
            assert_eq!(one, two, "{packet:02X?}");
            differ += usize::from(answers[0] != answers[1]);
            compared += usize::from(answers[0].is_ok());
        }
        assert!(left.states[same] == right.states[same], "{packet:02X?}");
    }
    assert!(compared > 400 && changes > 2000, "{compared}, {changes}");
    assert!(left.states[changed] != right.states[changed]);
    assert_eq!(differ != 0, changed == PRIMARY);
}

#[test]
fn packets_for_the_primary_and_its_start_show_in_nothing_of_the_alternate() {
    EDITIONS.into_iter().for_each(|edition| is_isolated(PRIMARY, edition));
}

#[test]
fn packets_for_the_alternate_and_its_start_show_in_nothing_of_the_primary() {
    EDITIONS.into_iter().for_each(|edition| is_isolated(ALTERNATE, edition));
}

/// What a pair is made of is what it gives back.
#[test]
fn a_pair_shows_its_sides() {
    let mut drawn = Drawn(13);
    let states = FUNCTIONS.map(|function| drawn_state(&mut drawn, function));
    let mut run = Run {
        edition: Edition::Two,
        states: states.clone(),
    };
    run.with(|pair| {
        let sides = [&pair.primary, &pair.alternate];
        for (side, state) in SIDES.map(|side| (sides[side], &states[side])) {
            assert_eq!((side.description, side.capture), (state.function, None));
            assert_eq!(
                (&*side.ordinary.bytes, side.ordinary.rules),
                (&state.ordinary[0][..], &state.ordinary[1][..])
            );
            assert_eq!(
                (&*side.trusted.bytes, side.trusted.marks),
                (&state.trusted[0][..], &state.trusted[2][..])
            );
        }
        let shown = format!("{pair:?}");
        assert!(
            shown.starts_with("Pair { edition: Two, primary: Side { description: Function { function: 2, "),
            "{shown}"
        );
        assert!(shown.len() < 800, "{shown}");
    });
}
