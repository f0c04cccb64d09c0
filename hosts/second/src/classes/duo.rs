//! The classes of a call of `serve_pair` and of `reset_pair`, from their inputs and the model's answer.

use super::duo_access::count_accepted;
use super::duo_causes::count_causes;
use super::group::Group;
use super::tally::Tally;
use crate::generate::{DuoCase, MARKS_LENGTHS, NAMED_LENGTHS, ServeCase, marks_length_place, named_length_place};

/// The buffers of one function, as lent: of each space what it was before and what it is then.
#[derive(Clone, Copy)]
pub struct SideView<'call> {
    pub ordinary: [&'call [u8]; 2],
    pub ordinary_rules: &'call [u8],
    pub ordinary_marks: &'call [u8],
    pub trusted: [&'call [u8]; 2],
    pub trusted_rules: &'call [u8],
    pub trusted_marks: &'call [u8],
}

impl SideView<'_> {
    /// Whether no byte of either space changed.
    pub fn is_unchanged(&self) -> bool {
        self.ordinary[0] == self.ordinary[1] && self.trusted[0] == self.trusted[1]
    }

    /// The rules and the marks of the trusted space, or of the ordinary one.
    pub const fn ruled(&self, trusted: bool) -> [&[u8]; 2] {
        if trusted {
            [self.trusted_rules, self.trusted_marks]
        } else {
            [self.ordinary_rules, self.ordinary_marks]
        }
    }
}

/// A call of `serve_pair` and what the model made of it: of the primary, of the alternate, and of both.
pub struct DuoView<'call> {
    pub case: &'call DuoCase,
    pub sides: [SideView<'call>; 2],
    pub number: u8,
    pub length: usize,
    pub captured_then: [Option<(u8, u8)>; 2],
    /// The reply as it was lent, and as it is then.
    pub replies: [&'call [u8]; 2],
}

impl DuoView<'_> {
    /// What each function had captured.
    pub fn captures(&self) -> [Option<(u8, u8)>; 2] {
        self.case.sides.map(|side| {
            let kept = side.kept;
            (kept.captured != 0).then_some((kept.bus, kept.device))
        })
    }
}

/// What happened on the board before this call.
#[derive(Clone, Copy, Default)]
pub struct DuoHistory {
    /// The number of the call before, 0 where there was none.
    last_number: u8,
    /// Whom the last accepted packet was for: 0 the primary, 1 the alternate, 2 neither.
    pub last_whom: Option<usize>,
    /// Of each function, whether its trusted word at B was changed since its ordinary word at A was last read.
    pub b_changed: [bool; 2],
    /// Of each function, whether the other's word at B was changed since its own at A was last read.
    pub others_b_changed: [bool; 2],
}

/// Whose the number is that a packet has in byte 9, by a table of the eight: 0 the primary's, 1 the alternate's, 2
/// nobody's. Of a number over 7, the low three bits count.
pub fn named(ninth: u8, numbers: [u8; 2]) -> usize {
    let mut owners = [2; 8];
    for (side, number) in numbers.into_iter().enumerate() {
        owners[usize::from(number % 8)] = side;
    }
    owners[usize::from(ninth % 8)]
}

/// Counts a call in all its classes, and takes it into the board's history.
pub fn count(view: &DuoView<'_>, history: &mut DuoHistory, tally: &mut Tally) {
    tally.add(Group::DuoAnswers, view.number.into());
    for (side, case) in view.case.sides.iter().enumerate() {
        count_lengths(side, case, tally);
        count_kept(side, case, view.number == 0, tally);
    }
    let shared = view.case.shared();
    tally.add(Group::DuoReplies, shared.reply_length.min(21));
    tally.add(Group::DuoPacketLengths, shared.packet.length);
    count_causes(view, tally);
    if view.number == 0 {
        if history.last_number != 0 {
            tally.add(Group::DuoAfterRefusal, usize::from(history.last_number) - 1);
        }
        count_accepted(view, history, tally);
    } else {
        expect_nothing_changed(view);
    }
    history.last_number = view.number;
}

/// "Every number but 0 leaves spaces, capture, reply and list room unchanged, and reports length or count 0". Where the
/// model changed something, the run stops.
fn expect_nothing_changed(view: &DuoView<'_>) {
    let unchanged = view.length == 0
        && view.sides.iter().all(SideView::is_unchanged)
        && view.captured_then == view.captures()
        && view.replies[0] == view.replies[1];
    assert!(unchanged, "the model changed something with a refusal");
}

fn count_lengths(side: usize, case: &ServeCase, tally: &mut Tally) {
    let first = side * (4 * NAMED_LENGTHS + 2 * MARKS_LENGTHS);
    let (spaces, marks) = case.lengths.split_at(4);
    for (space, &length) in spaces.iter().enumerate() {
        if let Some(place) = named_length_place(length) {
            tally.add(Group::DuoLengths, first + space * NAMED_LENGTHS + place);
        }
    }
    for (space, &length) in marks.iter().enumerate() {
        if let Some(place) = marks_length_place(length) {
            tally.add(
                Group::DuoLengths,
                first + 4 * NAMED_LENGTHS + space * MARKS_LENGTHS + place,
            );
        }
    }
}

fn count_kept(side: usize, case: &ServeCase, served: bool, tally: &mut Tally) {
    let kept = case.kept;
    let nothing = kept.captured == 0;
    let forms = [
        nothing && kept.device > 31 && served,
        nothing && (kept.bus, kept.device) != (0, 0) && !served,
        kept.captured > 1 && served,
        kept.captured > 1 && !served,
    ];
    for (form, present) in forms.into_iter().enumerate() {
        tally.add_if(present, Group::DuoKept, 4 * side + form);
    }
}

/// The place of two captures among the five ways that they can be: none, only one of them, the same, two that differ.
pub fn captures_place(captures: [Option<(u8, u8)>; 2]) -> usize {
    match captures {
        [None, None] => 0,
        [Some(_), None] => 1,
        [None, Some(_)] => 2,
        [primary, alternate] if primary == alternate => 3,
        _ => 4,
    }
}

/// Counts a call of `reset_pair`. Where the model left a capture, the run stops.
pub fn count_reset(captures: [Option<(u8, u8)>; 2], after: [Option<(u8, u8)>; 2], tally: &mut Tally) {
    assert_eq!(after, [None; 2], "a reset forgets both captures");
    tally.add(Group::DuoResets, captures_place(captures));
}

#[cfg(test)]
mod tests {
    use super::{Tally, captures_place, count_reset, named};

    #[test]
    fn a_number_is_the_primarys_the_alternates_or_nobodys() {
        for (primary, alternate) in (0..8).flat_map(|primary| (0..8).map(move |alternate| (primary, alternate))) {
            for ninth in 0..=0xFF {
                let due = match ninth & 7 {
                    number if number == alternate => 1,
                    number if number == primary => 0,
                    _ => 2,
                };
                assert_eq!(named(ninth, [primary, alternate]), due);
            }
        }
    }

    #[test]
    fn two_captures_have_their_place() {
        let (one, two) = (Some((5, 3)), Some((5, 4)));
        let ways = [[None, None], [one, None], [None, one], [one, one], [one, two]];
        assert!(ways.into_iter().map(captures_place).eq(0..5));
    }

    #[test]
    #[should_panic(expected = "forgets both")]
    fn a_capture_that_is_left_stops_the_run() {
        count_reset([Some((5, 3)); 2], [None, Some((5, 3))], &mut Tally::new());
    }
}
