//! The classes of a call of `judge`, from its inputs and the model's answer.

use thawribbon::raw::Judged;

use super::group::Group;
use super::judge_causes::{RECORD_CAUSES, count_enable, count_value, record_causes};
use super::judge_names::{JudgeCause, JudgeTogether};
use super::judge_ports::{count_ports, due};
use super::judge_window::{Hit, count_address};
use super::tally::Tally;
use crate::generate::JudgeCase;

/// A call of `judge` and what the model made of it.
pub struct JudgeView<'call> {
    pub case: &'call JudgeCase,
    pub judged: Judged,
}

/// Counts a call in all its classes. Where its inputs call for another answer than the model gave, the run stops.
pub fn count(view: &JudgeView<'_>, tally: &mut Tally) {
    let case = view.case;
    tally.add(Group::JudgeLengths, case.ports.len().min(35));
    let records = record_causes(&case.ports);
    let is_long = case.ports.len() > 32;
    let has_port = case.entering < case.ports.len();
    if is_long || !has_port || !records.is_empty() {
        let refused = Judged {
            number: 1,
            ..Judged::default()
        };
        assert_eq!(view.judged, refused, "the model and the causes disagree on an address");
        tally.add(Group::JudgeAnswers, 3);
        return count_refused(case, &records, tally);
    }
    let hit = Hit::of(&case.ports[case.entering], case.address);
    assert_eq!(
        view.judged,
        due(case, hit),
        "the model and the windows disagree on an address"
    );
    let answer = answer(view.judged);
    tally.add(Group::JudgeAnswers, answer);
    tally.add(Group::JudgeLists, 32 * answer + case.ports.len() - 1);
    count_address(case, hit, tally);
    if let Hit::Group(window) = hit {
        count_ports(case, window.group, view.judged, tally);
    }
}

/// The place of an answer that is not refused: leaves, dropped, no hit.
fn answer(judged: Judged) -> usize {
    3 - usize::from(judged.verdict)
}

/// Counts a call that is refused by its causes, one or two.
fn count_refused(case: &JudgeCase, records: &[(usize, usize)], tally: &mut Tally) {
    let is_long = case.ports.len() > 32;
    let has_port = case.entering < case.ports.len();
    let two = match (is_long, has_port, records) {
        (true, true, []) => return tally.add(Group::JudgeCauses, long(case) as usize),
        (false, false, []) => return tally.add(Group::JudgeCauses, no_port(case) as usize),
        (false, true, &[(place, cause)]) => return count_record(case, place, cause, tally),
        (true, false, []) => JudgeTogether::LongerAndNoPort,
        (true, true, [_]) => JudgeTogether::LongerAndRecord,
        (false, false, [_]) => JudgeTogether::NoPortAndRecord,
        (false, true, [(one, _), (other, _)]) if one == other => JudgeTogether::TwoOfOneRecord,
        (false, true, [_, _]) => JudgeTogether::TwoRecords,
        _ => return,
    };
    tally.add(Group::JudgeTogether, two as usize);
}

/// How a list is too long.
fn long(case: &JudgeCase) -> JudgeCause {
    let by_low_byte = case.ports.len() % 256;
    match case.ports.len() {
        33 => JudgeCause::Ports33,
        256.. if by_low_byte <= 32 && case.entering < by_low_byte => JudgeCause::GoodByLowByte,
        _ => JudgeCause::MorePorts,
    }
}

/// How there is no port at the place that is entered by.
fn no_port(case: &JudgeCase) -> JudgeCause {
    let (length, entering) = (case.ports.len(), case.entering);
    match entering {
        _ if length == 0 => JudgeCause::Empty,
        _ if entering >> 32 != 0 && entering % (1 << 32) < length => JudgeCause::Low32Bits,
        _ if entering >> 16 != 0 && entering % (1 << 16) < length => JudgeCause::Low16Bits,
        _ if entering >> 8 != 0 && entering % (1 << 8) < length => JudgeCause::Low8Bits,
        _ if entering == length => JudgeCause::BehindTheLast,
        _ => JudgeCause::FurtherOn,
    }
}

/// Counts the cause of one record: by the record's place, by its value, by Enable, and by what would become of the packet.
fn count_record(case: &JudgeCase, place: usize, cause: usize, tally: &mut Tally) {
    tally.add(Group::JudgeCauses, JudgeCause::FirstOfRecords as usize + cause);
    tally.add(Group::JudgeRecords, RECORD_CAUSES * place + cause);
    count_value(&case.ports[place], cause, tally);
    count_enable(&case.ports[place], cause, tally);
    let otherwise = if place == case.entering {
        0
    } else {
        let hit = Hit::of(&case.ports[case.entering], case.address);
        1 + answer(due(case, hit))
    };
    tally.add(Group::JudgeRecordPlaces, 4 * cause + otherwise);
}
