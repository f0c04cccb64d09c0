//! Wrong ways to judge a board by its marks: by bits that are marked both as writable and as cleared by writing 1, and
//! by the lengths of the buffers.

use second::compare::{Reference, ServeCall, Subject, meaning};
use thawribbon::raw::Served;

use crate::harness::{Wrong, expect_caught, expect_not_caught, word};
use crate::serving::{again, code, offset, rehearsed, short_completion};

/// A refusal with a number.
fn refused(call: &ServeCall<'_>, number: u8) -> Served {
    Served {
        number,
        length: 0,
        capture: call.kept,
    }
}

/// Marks of the right length without those bits that are writable too. Where there were fewer bytes, the others are 0.
fn repaired(rules: &[u8], marks: &[u8]) -> Vec<u8> {
    let mut repaired = marks.to_vec();
    repaired.resize(4096, 0);
    for (mark, rule) in repaired.iter_mut().zip(rules) {
        *mark &= !rule;
    }
    repaired
}

/// Serves with marks that are not at fault, of the spaces for which this is wished: the ordinary and the trusted one.
fn served_with_repaired(call: &mut ServeCall<'_>, wished: [bool; 2]) -> Served {
    let pairs = [
        (call.ordinary_rules, call.ordinary_marks),
        (call.trusted_rules, call.trusted_marks),
    ];
    let [ordinary_marks, trusted_marks] = [0, 1].map(|space: usize| {
        let (rules, marks) = pairs[space];
        if wished[space] {
            repaired(rules, marks)
        } else {
            marks.to_vec()
        }
    });
    Reference.serve(ServeCall {
        ordinary_marks: &ordinary_marks,
        trusted_marks: &trusted_marks,
        ..again(call)
    })
}

/// The number that a call has when its marks are not at fault, while no byte that is lent changes.
fn number_without(call: &mut ServeCall<'_>) -> u8 {
    let (mut ordinary, mut trusted, mut reply) = (call.ordinary.to_vec(), call.trusted.to_vec(), call.reply.to_vec());
    let mut copies = ServeCall {
        ordinary: &mut ordinary,
        trusted: &mut trusted,
        reply: &mut reply,
        ..again(call)
    };
    served_with_repaired(&mut copies, [true; 2]).number
}

/// One space as it is judged, and what the packet has to do with it.
struct Judged<'call> {
    trusted: bool,
    rules: &'call [u8],
    marks: &'call [u8],
    call: &'call ServeCall<'call>,
}

impl Judged<'_> {
    /// Whether a bit is marked doubly in some of the bytes, as told by place.
    fn is_doubled(&self, counts: impl Fn(usize) -> bool) -> bool {
        let mut pairs = self.rules.iter().zip(self.marks).enumerate();
        pairs.any(|(place, (rule, mark))| rule & mark != 0 && counts(place))
    }

    /// Whether two bytes, rules and marks, are found at fault anywhere.
    fn any(&self, is_bad: impl Fn(u8, u8) -> bool) -> bool {
        self.rules
            .iter()
            .zip(self.marks)
            .any(|(&rule, &mark)| is_bad(rule, mark))
    }

    /// The offset of the word that the packet asks for, if it has one.
    fn asked(&self) -> Option<usize> {
        (self.call.packet.len() >= 12).then(|| offset(self.call.packet))
    }

    /// Whether the packet asks for this space.
    fn is_asked(&self) -> bool {
        self.trusted == (!self.call.packet.is_empty() && code(self.call) & 0x3F == 0x1B)
    }
}

/// Serves where each space of a board with buffers of the right lengths is judged in another way.
fn judged_by(is_bad: impl Fn(&Judged<'_>) -> bool + 'static) -> Wrong {
    Wrong::serve(move |mut call| {
        let buffers = [
            call.ordinary_rules,
            call.ordinary_marks,
            call.trusted_rules,
            call.trusted_marks,
        ];
        if buffers.iter().any(|buffer| buffer.len() != 4096) {
            return Reference.serve(call);
        }
        let [ordinary_rules, ordinary_marks, trusted_rules, trusted_marks] = buffers;
        let lent = again(&mut call);
        let judged = |trusted, rules, marks| {
            is_bad(&Judged {
                trusted,
                rules,
                marks,
                call: &lent,
            })
        };
        if judged(false, ordinary_rules, ordinary_marks) || judged(true, trusted_rules, trusted_marks) {
            return refused(&call, 1);
        }
        served_with_repaired(&mut call, [true; 2])
    })
}

/// Fails unless another way to judge is caught.
fn expect_judge_caught(is_bad: impl Fn(&Judged<'_>) -> bool + 'static) {
    expect_caught(judged_by(is_bad), "serve");
}

/// Fails unless it is caught that bits marked doubly count only in some places.
fn expect_caught_looking_at(counts: impl Fn(usize) -> bool + 'static) {
    expect_judge_caught(move |judged| judged.is_doubled(&counts));
}

#[test]
fn the_form_of_these_with_nothing_wrong_is_not_caught() {
    expect_not_caught(judged_by(|judged| judged.is_doubled(|_| true)));
}

#[test]
fn a_judge_that_counts_bits_is_not_caught() {
    expect_not_caught(judged_by(|judged| {
        judged.any(|rule, mark| rule.count_ones() + mark.count_ones() != (rule | mark).count_ones())
    }));
}

#[test]
fn bits_marked_doubly_not_looked_for() {
    expect_judge_caught(|_| false);
}

#[test]
fn bits_marked_doubly_looked_for_in_one_space() {
    for trusted in [false, true] {
        expect_judge_caught(move |judged| judged.trusted == trusted && judged.is_doubled(|_| true));
    }
}

#[test]
fn bits_marked_doubly_looked_for_in_the_space_asked_for() {
    expect_judge_caught(|judged| judged.is_asked() && judged.is_doubled(|_| true));
}

#[test]
fn bits_marked_doubly_looked_for_in_the_word_asked_for() {
    expect_judge_caught(|judged| {
        let asked = judged.asked();
        judged.is_asked() && judged.is_doubled(|place| Some(place & !3) == asked)
    });
    expect_judge_caught(|judged| {
        let asked = judged.asked();
        judged.is_doubled(|place| Some(place & !3) == asked)
    });
}

#[test]
fn bits_marked_doubly_looked_for_up_to_the_word_asked_for() {
    expect_judge_caught(|judged| {
        let asked = judged.asked();
        judged.is_doubled(|place| asked.is_none_or(|asked| place < asked + 4))
    });
    expect_judge_caught(|judged| {
        let asked = judged.asked();
        judged.is_doubled(|place| asked.is_none_or(|asked| place >= asked))
    });
}

#[test]
fn bits_marked_doubly_looked_for_only_where_a_write_is_asked_for() {
    expect_judge_caught(|judged| {
        let writes = !judged.call.packet.is_empty() && code(judged.call) & 0x40 != 0;
        writes && judged.is_doubled(|_| true)
    });
    expect_judge_caught(|judged| {
        let type_1 = !judged.call.packet.is_empty() && code(judged.call) & 0x3F == 0x05;
        !type_1 && judged.is_doubled(|_| true)
    });
}

#[test]
fn bits_marked_doubly_looked_for_in_too_few_bytes() {
    for end in [64, 256, 2048, 4092, 4095] {
        expect_caught_looking_at(move |place| place < end);
    }
    for first in [1, 4, 64, 256] {
        expect_caught_looking_at(move |place| place >= first);
    }
}

#[test]
fn bits_marked_doubly_looked_for_in_some_bytes_of_a_word() {
    for byte in 0..4 {
        expect_caught_looking_at(move |place| place % 4 != byte);
        expect_caught_looking_at(move |place| place % 4 == byte);
    }
    expect_caught_looking_at(|place| place % 8 < 4);
    expect_caught_looking_at(|place| place % 8 >= 4);
}

#[test]
fn one_page_of_256_bytes_not_looked_at() {
    for page in 0..16 {
        expect_caught_looking_at(move |place| place / 256 != page);
    }
}

#[test]
fn the_word_at_a_or_at_b_not_looked_at() {
    expect_judge_caught(|judged| {
        let a = judged.call.description.a as usize;
        judged.is_doubled(|place| judged.trusted || place & !3 != a)
    });
    expect_judge_caught(|judged| {
        let b = judged.call.description.b as usize;
        judged.is_doubled(|place| !judged.trusted || place & !3 != b)
    });
}

#[test]
fn one_bit_of_eight_not_looked_at_or_looked_at_alone() {
    for bit in 0..8 {
        expect_judge_caught(move |judged| judged.any(|rule, mark| rule & mark & !(1 << bit) != 0));
        expect_judge_caught(move |judged| judged.any(|rule, mark| rule & mark & 1 << bit != 0));
    }
}

#[test]
fn a_byte_found_only_by_its_whole_value() {
    expect_judge_caught(|judged| judged.any(|rule, mark| rule & mark != 0 && rule == mark));
    expect_judge_caught(|judged| judged.any(|rule, mark| rule & mark != 0 && rule != mark));
    expect_judge_caught(|judged| judged.any(|rule, mark| rule & mark == 0xFF));
    expect_judge_caught(|judged| judged.any(|rule, mark| (rule & mark).is_power_of_two()));
    expect_judge_caught(|judged| judged.any(|rule, mark| (rule & mark).count_ones() > 1));
    expect_judge_caught(|judged| judged.any(|rule, mark| rule.checked_add(mark).is_none()));
    expect_judge_caught(|judged| judged.any(|rule, mark| rule & mark != 0 && rule & mark == mark));
    expect_judge_caught(|judged| judged.any(|rule, mark| rule & mark != 0 && rule & mark == rule));
}

#[test]
fn only_whole_spaces_that_are_alike_found() {
    expect_judge_caught(|judged| judged.rules == judged.marks);
    expect_judge_caught(|judged| judged.rules != judged.marks && judged.is_doubled(|_| true));
}

#[test]
fn a_good_board_refused() {
    expect_judge_caught(|judged| judged.is_doubled(|_| true) || judged.any(|rule, mark| rule | mark != 0xFF));
    expect_judge_caught(|judged| judged.is_doubled(|_| true) || judged.any(|rule, mark| rule != 0 && mark != 0));
    expect_judge_caught(|judged| judged.is_doubled(|_| true) || judged.marks.iter().all(|&mark| mark == 0));
    expect_judge_caught(|judged| judged.is_doubled(|_| true) || judged.any(|_, mark| mark == 0xFF));
}

#[test]
fn marks_at_a_or_at_b_refused() {
    expect_judge_caught(|judged| {
        let a = judged.call.description.a as usize & 0xFFC;
        judged.is_doubled(|_| true) || !judged.trusted && word(judged.marks, a) != 0
    });
    expect_judge_caught(|judged| {
        let b = judged.call.description.b as usize & 0xFFC;
        judged.is_doubled(|_| true) || judged.trusted && word(judged.marks, b) != 0
    });
}

#[test]
fn rules_compared_with_the_marks_of_something_else() {
    expect_judge_caught(|judged| {
        let others = if judged.trusted {
            judged.call.ordinary_marks
        } else {
            judged.call.trusted_marks
        };
        judged.rules.iter().zip(others).any(|(rule, mark)| rule & mark != 0)
    });
    expect_judge_caught(|judged| {
        let next = judged.marks.iter().skip(1);
        judged.rules.iter().zip(next).any(|(rule, mark)| rule & mark != 0)
    });
}

/// Serves where a fault of the marks alone, whether by bits or by a length, is answered in another way.
fn at_fault(other: impl Fn(&mut ServeCall<'_>, bool) -> Option<Served> + 'static) -> Wrong {
    Wrong::serve(move |mut call| {
        let lengths = [call.ordinary_marks.len(), call.trusted_marks.len()];
        let by_length = lengths != [4096; 2];
        let is_at_fault = rehearsed(&mut call).0.number == 1 && number_without(&mut call) != 1;
        let answer = if is_at_fault { other(&mut call, by_length) } else { None };
        answer.unwrap_or_else(|| Reference.serve(call))
    })
}

#[test]
fn a_fault_of_the_marks_given_another_number() {
    for number in [0, 2, 6, 7, 8, 9, 13] {
        for length in [false, true] {
            expect_caught(
                at_fault(move |call, by_length| (by_length == length).then(|| refused(call, number))),
                "serve",
            );
        }
    }
}

#[test]
fn a_fault_of_the_marks_tested_after_another_number() {
    for number in 2..=6 {
        for length in [false, true] {
            expect_caught(
                at_fault(move |call, by_length| {
                    let later = by_length == length && number_without(call) == number;
                    later.then(|| refused(call, number))
                }),
                "serve",
            );
        }
    }
}

#[test]
fn a_fault_of_the_marks_answered_by_unsupported_request() {
    for length in [false, true] {
        expect_caught(
            at_fault(move |call, by_length| {
                let due = by_length == length && number_without(call) == 0;
                let kept = meaning(call.kept);
                due.then(|| short_completion(call, kept, 0x20))
            }),
            "serve",
        );
    }
}

#[test]
fn something_changed_with_the_refusal() {
    expect_caught(
        at_fault(|call, _| {
            call.reply.iter_mut().for_each(|byte| *byte = 0);
            None
        }),
        "serve",
    );
    expect_caught(
        at_fault(|call, _| {
            call.trusted.fill(0);
            None
        }),
        "serve",
    );
    expect_caught(
        at_fault(|call, _| {
            Some(Served {
                length: 12,
                ..refused(call, 1)
            })
        }),
        "serve",
    );
}

/// Serves where marks with one of some lengths, in one space, are taken as if they had 4,096 bytes.
fn expect_caught_taking(trusted: bool, is_taken: impl Fn(usize) -> bool + 'static) {
    let takes = move |mut call: ServeCall<'_>| {
        let marks = if trusted {
            call.trusted_marks
        } else {
            call.ordinary_marks
        };
        if marks.len() != 4096 && is_taken(marks.len()) {
            served_with_repaired(&mut call, [!trusted, trusted])
        } else {
            Reference.serve(call)
        }
    };
    expect_caught(Wrong::serve(takes), "serve");
}

#[test]
fn other_lengths_of_marks_taken() {
    for trusted in [false, true] {
        expect_caught_taking(trusted, |_| true);
        expect_caught_taking(trusted, |length| length > 4096);
        expect_caught_taking(trusted, |length| length < 4096);
        expect_caught_taking(trusted, |length| length % 4096 == 0);
        expect_caught_taking(trusted, |length| length & 0x0FFF == 0 && length != 0);
        expect_caught_taking(trusted, |length| length / 4 == 1024);
        for taken in [0, 1, 4, 4092, 4095, 4097, 4100, 8192] {
            expect_caught_taking(trusted, move |length| length == taken);
        }
    }
}
