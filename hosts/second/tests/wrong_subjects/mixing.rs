//! Wrong ways to keep the spaces, the rules, the marks and the correlation words of two functions apart. By request 11/13
//! each has its own.

use std::mem::swap;

use second::compare::{DuoCall, DuoServed, Reference, Subject};

use crate::coupler::{
    SIDES, accepting, again, code, expect_caught_accepting, expect_caught_serving, is_trusted, rehearsed, served_alone,
    whom,
};
use crate::harness::{expect_two_caught, word};
use crate::serving::offset;

/// Has a packet served where the two functions have something the other way round.
fn exchanged(call: &mut DuoCall<'_>, exchange: impl FnOnce(&mut DuoCall<'_>)) -> DuoServed {
    let mut call = again(call);
    exchange(&mut call);
    Reference.serve_pair(call)
}

#[test]
fn the_others_a_is_used() {
    expect_caught_serving(|call, side| {
        let a = call.sides[1 - side].a;
        Some(served_alone(call, side, |alone| alone.description.a = a))
    });
}

#[test]
fn the_others_b_is_used() {
    expect_caught_serving(|call, side| {
        let b = call.sides[1 - side].b;
        Some(served_alone(call, side, |alone| alone.description.b = b))
    });
}

#[test]
fn the_others_a_and_b_are_used() {
    expect_caught_serving(|call, side| {
        let (a, b) = (call.sides[1 - side].a, call.sides[1 - side].b);
        Some(served_alone(call, side, |alone| {
            (alone.description.a, alone.description.b) = (a, b);
        }))
    });
}

#[test]
fn the_others_rules_are_used() {
    expect_caught_serving(|call, side| {
        let (own, other) = (&call.sides[side], &call.sides[1 - side]);
        let (rules, marks) = if is_trusted(call) {
            (other.trusted_rules, own.trusted_marks)
        } else {
            (other.ordinary_rules, own.ordinary_marks)
        };
        let rules: Vec<u8> = rules.iter().zip(marks).map(|(rule, mark)| rule & !mark).collect();
        let mut call = again(call);
        if is_trusted(&call) {
            call.sides[side].trusted_rules = &rules;
        } else {
            call.sides[side].ordinary_rules = &rules;
        }
        Some(Reference.serve_pair(call))
    });
}

#[test]
fn the_others_marks_are_used() {
    expect_caught_serving(|call, side| {
        let (own, other) = (&call.sides[side], &call.sides[1 - side]);
        let (rules, marks) = if is_trusted(call) {
            (own.trusted_rules, other.trusted_marks)
        } else {
            (own.ordinary_rules, other.ordinary_marks)
        };
        let marks: Vec<u8> = rules.iter().zip(marks).map(|(rule, mark)| mark & !rule).collect();
        let mut call = again(call);
        if is_trusted(&call) {
            call.sides[side].trusted_marks = &marks;
        } else {
            call.sides[side].ordinary_marks = &marks;
        }
        Some(Reference.serve_pair(call))
    });
}

#[test]
fn the_others_rules_and_marks_are_used() {
    for trusted in [true, false] {
        expect_caught_serving(move |call, _| {
            (is_trusted(call) == trusted).then(|| {
                exchanged(call, |call| {
                    let [first, second] = &mut call.sides;
                    swap(&mut first.ordinary_rules, &mut second.ordinary_rules);
                    swap(&mut first.ordinary_marks, &mut second.ordinary_marks);
                    swap(&mut first.trusted_rules, &mut second.trusted_rules);
                    swap(&mut first.trusted_marks, &mut second.trusted_marks);
                })
            })
        });
    }
}

#[test]
fn an_ordinary_packet_goes_to_the_others_ordinary_space() {
    for writes in [0x04, 0x44] {
        expect_caught_serving(move |call, _| {
            (code(call) == writes).then(|| {
                exchanged(call, |call| {
                    let [first, second] = &mut call.sides;
                    swap(&mut first.ordinary, &mut second.ordinary);
                })
            })
        });
    }
}

#[test]
fn a_trusted_packet_goes_to_the_others_trusted_space() {
    for writes in [0x1B, 0x5B] {
        expect_caught_serving(move |call, _| {
            (code(call) == writes).then(|| {
                exchanged(call, |call| {
                    let [first, second] = &mut call.sides;
                    swap(&mut first.trusted, &mut second.trusted);
                })
            })
        });
    }
}

#[test]
fn a_read_at_a_shows_the_others_trusted_space() {
    expect_caught_serving(|call, side| {
        let reads_at_a = code(call) == 0x04 && offset(call.packet) == call.sides[side].a as usize;
        reads_at_a.then(|| {
            exchanged(call, |call| {
                let [first, second] = &mut call.sides;
                swap(&mut first.trusted, &mut second.trusted);
            })
        })
    });
}

#[test]
fn a_read_at_a_shows_the_others_register() {
    expect_caught_serving(|call, side| {
        let reads_at_a = code(call) == 0x04 && offset(call.packet) == call.sides[side].a as usize;
        reads_at_a.then(|| {
            exchanged(call, |call| {
                let [first, second] = &mut call.sides;
                swap(&mut first.trusted, &mut second.trusted);
                swap(&mut first.b, &mut second.b);
            })
        })
    });
}

/// Both places A are special in both functions: a read at the other's shows something else than the word that is there.
#[test]
fn a_read_at_the_others_a_shows_a_register() {
    for others in [true, false] {
        expect_caught_serving(move |call, side| {
            let (own, other) = (&call.sides[side], &call.sides[1 - side]);
            let at_the_others = offset(call.packet) == other.a as usize && own.a != other.a;
            let shown = if others { other } else { own };
            let register = word(shown.trusted, shown.b as usize);
            let served = Reference.serve_pair(again(call));
            if code(call) == 0x04 && at_the_others {
                call.reply[12..16].copy_from_slice(&register.to_le_bytes());
            }
            Some(served)
        });
    }
}

#[test]
fn a_write_at_the_others_a_changes_nothing() {
    expect_caught_serving(|call, side| {
        let at_the_others = offset(call.packet) == call.sides[1 - side].a as usize;
        (code(call) == 0x44 && at_the_others).then(|| {
            let (served, reply) = rehearsed(call);
            call.reply.copy_from_slice(&reply);
            served
        })
    });
}

#[test]
fn a_write_at_a_is_done() {
    expect_caught_serving(|call, side| {
        let elsewhere = if call.sides[side].a == 0x104 { 0x108 } else { 0x104 };
        let at_a = offset(call.packet) == call.sides[side].a as usize;
        (code(call) == 0x44 && at_a).then(|| served_alone(call, side, |alone| alone.description.a = elsewhere))
    });
}

/// A board that does what it has to, and then something more, by the function that was asked.
fn expect_caught_after(more: impl Fn(&mut DuoCall<'_>, usize) + Copy + 'static) {
    for wrong in SIDES {
        let subject = accepting(move |call| {
            let side = whom(call)?;
            let served = Reference.serve_pair(again(call));
            if side == wrong && call.reply[6] == 0 {
                more(call, side);
            }
            Some(served)
        });
        expect_two_caught(subject, "serve_pair");
    }
}

/// The four bytes that lie at the packet's offset.
fn four_bytes(space: &[u8], at: usize) -> [u8; 4] {
    word(space, at).to_le_bytes()
}

#[test]
fn an_ordinary_write_lands_in_both_functions() {
    expect_caught_after(|call, side| {
        let at = offset(call.packet);
        let bytes = four_bytes(call.sides[side].ordinary, at);
        if code(call) == 0x44 {
            call.sides[1 - side].ordinary[at..at + 4].copy_from_slice(&bytes);
        }
    });
}

#[test]
fn a_trusted_write_lands_in_both_functions() {
    expect_caught_after(|call, side| {
        let at = offset(call.packet);
        let bytes = four_bytes(call.sides[side].trusted, at);
        if code(call) == 0x5B {
            call.sides[1 - side].trusted[at..at + 4].copy_from_slice(&bytes);
        }
    });
}

#[test]
fn the_two_registers_are_one() {
    expect_caught_after(|call, side| {
        let (own, others) = (call.sides[side].b as usize, call.sides[1 - side].b as usize);
        let bytes = four_bytes(call.sides[side].trusted, own);
        if code(call) == 0x5B && offset(call.packet) == own {
            call.sides[1 - side].trusted[others..others + 4].copy_from_slice(&bytes);
        }
    });
}

#[test]
fn a_write_to_one_function_clears_marked_bits_of_the_other() {
    expect_caught_after(|call, side| {
        let at = offset(call.packet);
        let other = &mut call.sides[1 - side];
        let (space, marks) = match code_of(call.packet) {
            0x44 => (&mut *other.ordinary, other.ordinary_marks),
            0x5B => (&mut *other.trusted, other.trusted_marks),
            _ => return,
        };
        for place in 0..4 {
            let enabled = call.packet[7] >> place & 1 == 1;
            if enabled {
                space[at + place] &= !(marks[at + place] & call.packet[12 + place]);
            }
        }
    });
}

/// The type code of a packet.
const fn code_of(packet: &[u8]) -> u8 {
    packet[0] & 0x7F
}

#[test]
fn a_word_of_the_other_function_is_cleared_by_a_read() {
    expect_caught_after(|call, side| {
        let at = offset(call.packet);
        match code(call) {
            0x04 => call.sides[1 - side].ordinary[at..at + 4].fill(0),
            0x1B => call.sides[1 - side].trusted[at..at + 4].fill(0),
            _ => {}
        }
    });
}

/// What was written to one function is put back where the other is asked, and so is lost.
#[test]
fn a_packet_for_one_function_undoes_the_last_write_to_the_other() {
    for wrong in SIDES {
        let mut last: Option<(usize, [u8; 4])> = None;
        let undoes = move |mut call: DuoCall<'_>| {
            if rehearsed(&mut call).0.number != 0 {
                return Reference.serve_pair(call);
            }
            let (whom, at) = (whom(&call), offset(call.packet));
            if whom == Some(wrong) && code(&call) == 0x44 {
                last = Some((at, four_bytes(call.sides[wrong].ordinary, at)));
            }
            let asked_the_other = whom == Some(1 - wrong);
            if let Some((at, bytes)) = last.take_if(|_| asked_the_other) {
                call.sides[wrong].ordinary[at..at + 4].copy_from_slice(&bytes);
            }
            Reference.serve_pair(call)
        };
        expect_two_caught(crate::harness::Wrong::duo(undoes), "serve_pair");
    }
}

#[test]
fn a_packet_for_neither_changes_a_byte() {
    for (side, trusted) in SIDES.into_iter().flat_map(|side| [(side, false), (side, true)]) {
        expect_caught_accepting(move |call| {
            let (whom, at) = (whom(call), offset(call.packet));
            let served = Reference.serve_pair(again(call));
            if whom.is_none() {
                let own = &mut call.sides[side];
                let space = if trusted { &mut *own.trusted } else { &mut *own.ordinary };
                space[at] ^= 1;
            }
            Some(served)
        });
    }
}

#[test]
fn a_byte_of_one_space_changes_beside_the_word_that_is_written() {
    for place in [0, 4095] {
        expect_caught_after(move |call, side| call.sides[1 - side].trusted[place] ^= 0x80);
        expect_caught_after(move |call, side| call.sides[1 - side].ordinary[place] ^= 0x80);
    }
}
