//! Tests: safe Rust answers as the library does, and leaves the same, at every bound and not only where a row is; and the
//! function that a packet is for does the same as a board of one.

use super::board::{Library, Pair, SafeRust};
use super::check::{after, compare};
use super::two::Two;
use crate::packets::{self, Board, Draft, Setting};
use crate::random::Random;
use std::collections::BTreeSet;

const BOARDS: usize = 2000;
const PACKETS: usize = 16;
const CODES: [u8; 6] = [0x04, 0x44, 0x05, 0x45, 0x1B, 0x5B];

#[test]
fn sides_agree() {
    let mut random = Random::seeded(8900);
    let mut answers = BTreeSet::new();
    for _ in 0..BOARDS {
        let mut two = Two::drawn(&mut random);
        for _ in 0..random.below(3) {
            spoil(&mut random, &mut two);
        }
        let (mut library, mut safe_rust) = (Library::new(&two), SafeRust::new(&two));
        for _ in 0..PACKETS {
            let packet = draw(&mut random, &two);
            let expected = after(&mut safe_rust, &packet);
            assert_eq!(
                compare::<Library>("a drawn board", &packet, &after(&mut library, &packet), &expected),
                Ok(())
            );
            let status = (expected.answer.number == 0).then(|| expected.reply[6]);
            answers.insert((expected.answer.number, expected.answer.length, status));
        }
    }
    let done = [(0, 12, Some(0x00)), (0, 12, Some(0x20)), (0, 16, Some(0x00))];
    let refused = (1..=6).map(|number| (number, 0, None));
    assert_eq!(answers, done.into_iter().chain(refused).collect());
}

#[test]
fn a_function_serves_as_a_board_of_one() {
    let mut random = Random::seeded(8901);
    for _ in 0..BOARDS / 10 {
        let two = Two::drawn(&mut random);
        let mut pair = Library::new(&two);
        let mut alone = [&two.primary, &two.alternate].map(packets::Library::new);
        for _ in 0..PACKETS {
            let packet = draw(&mut random, &two);
            let is_for_alternate = packet.len() >= 12
                && packet[9] & 7 == two.alternate.function
                && !matches!(packet[0] & 0x7F, 0x05 | 0x45);
            let one = &mut alone[usize::from(is_for_alternate)];
            let (answer, told) = (one.serve(&packet), after(&mut pair, &packet));
            assert_eq!(told.answer, answer);
            assert_eq!(told.reply[..answer.length], one.lent().reply[..answer.length]);
            let captures = alone.each_ref().map(packets::Library::capture);
            assert_eq!(pair.captures(), captures);
        }
    }
}

/// A packet for one of the two or for neither, of any kind and at any place, which may have a fault.
fn draw(random: &mut Random, two: &Two) -> Box<[u8]> {
    let setting = two.either(random);
    let code = random.pick(&CODES);
    let any = random.below(1024) as u16 * 4;
    let offset = random.pick(&[any, any, setting.a, setting.b, 0x000, 0xFFC]);
    let draft = if code & 0x1F == 0x1B {
        Draft::trusted(code, random, setting)
    } else {
        Draft::ordinary(code, random, setting)
    };
    let draft = draft.at(offset);
    let draft = match random.below(20) {
        0 => draft.poisoned(),
        1 => draft.for_function(two.neither(random)),
        2 => draft.with_another_field(random),
        3 => draft.with_another_length(random),
        4 => draft.with_another_type_code(random),
        5 => draft.with_bit_7(true),
        6 => draft.cut_below_12(random),
        _ => draft,
    };
    draft.into_bytes()
}

/// Changes one thing of a board, mostly to what is at a bound.
fn spoil(random: &mut Random, two: &mut Two) {
    let place = random.below(4096);
    let place = random.pick(&[0, 4095, place]);
    match random.below(12) {
        0 => two.set_edition(random.pick(&[0, 1, 2, 2, 2, 3, 0x101])),
        1 => two.alternate.function = two.primary.function,
        2 => two.reply.resize(random.pick(&[0, 15, 16, 17, 32]), 0xEE),
        _ => spoil_function(random, two, place),
    }
}

fn spoil_function(random: &mut Random, two: &mut Two, place: usize) {
    let Setting {
        function,
        a,
        b,
        capture,
        lent,
        ..
    } = if random.byte() & 1 == 0 {
        &mut two.primary
    } else {
        &mut two.alternate
    };
    match random.below(9) {
        0 => *function = random.pick(&[0, 7, 8, 0xFF]),
        1 => *a = random.pick(&[0x000, 0x100, 0x104, 0x106, 0xFFC, 0x1000, 0xFFFF]),
        2 => *b = random.pick(&[0x000, 0x008, 0x00C, 0x00E, 0xFFC, 0x1000, 0xFFFF]),
        3 => *capture = None,
        4 => *capture = Some((random.byte(), random.pick(&[0, 31, 32, 0xFF]))),
        5 => lent.ordinary_marks[place] |= lent.ordinary_rules[place],
        6 => lent.trusted_rules[place] |= lent.trusted_marks[place],
        _ => {
            let buffers = [
                &mut lent.ordinary,
                &mut lent.ordinary_rules,
                &mut lent.ordinary_marks,
                &mut lent.trusted,
                &mut lent.trusted_rules,
                &mut lent.trusted_marks,
            ];
            let length = random.pick(&[0, 4095, 4097]);
            let chosen = random.below(buffers.len());
            if let Some(buffer) = buffers.into_iter().nth(chosen) {
                buffer.resize(length, 0x00);
            }
        }
    }
}
