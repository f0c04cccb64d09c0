//! The classes of the two questions for a DVSEC record, from the space, the offset and the model's answer.

use super::alone::{first_told, offset_causes, only};
use super::group::Group;
use super::tally::Tally;
use crate::generate::{NAMED_LENGTHS, named_length_place};
use crate::twin::word;

/// What is asked of a DVSEC record.
#[derive(Clone, Copy, PartialEq, Eq)]
pub enum Question {
    Fields,
    Body,
}

/// Counts a question for a DVSEC record, with the number that the model gives to it.
pub fn count_dvsec(space: &[u8], at: usize, question: Question, number: u8, tally: &mut Tally) {
    let second = usize::from(question == Question::Body);
    let answers = [0, 1, 8, 9];
    let answer = answers
        .iter()
        .position(|&known| known == number)
        .expect("DVSEC answers 0, 1, 8 or 9");
    tally.add(Group::DvsecAnswers, 4 * second + answer);
    if let Some(length) = named_length_place(space.len()) {
        tally.add(Group::SpaceLengths, (7 + second) * NAMED_LENGTHS + length);
    }
    let group = if question == Question::Body {
        Group::BodyCauses
    } else {
        Group::DvsecCauses
    };
    let outside = offset_causes(space, at, 0x100, 0xFFC);
    if outside.contains(&true) {
        assert_eq!(number, 1, "the model and the causes disagree on a DVSEC record");
        if let Some(cause) = only(&outside) {
            tally.add(group, cause);
        }
        return;
    }
    let causes = dvsec_causes(space, at);
    assert_eq!(
        first_told(&[(8, &causes[..2]), (9, &causes[2..])]),
        number,
        "the model and the causes disagree on a DVSEC record"
    );
    if let Some(cause) = only(&causes) {
        tally.add(group, 6 + cause);
    } else if number == 0 {
        count_sound_dvsec(space, at, question, tally);
    }
}

/// ID, version, the last two offsets, a length below 0Ah, and one that ends past 1000h.
fn dvsec_causes(space: &[u8], at: usize) -> [bool; 6] {
    let header = word(space, at);
    let has_room = at <= 0xFF4;
    let length = if has_room {
        (word(space, at + 4) >> 20) as usize
    } else {
        0x0A
    };
    [
        header & 0xFFFF != 0x0023,
        header >> 16 & 0xF != 1,
        at == 0xFF8,
        at == 0xFFC,
        length < 0x0A,
        has_room && at + length > 0x1000,
    ]
}

fn count_sound_dvsec(space: &[u8], at: usize, question: Question, tally: &mut Tally) {
    let first = if question == Question::Body { 6 } else { 0 };
    let header = word(space, at + 4);
    let body = (header >> 20) as usize - 0x0A;
    tally.add_if(body == 0, Group::DvsecBodies, first);
    tally.add_if(body == 1, Group::DvsecBodies, first + 1);
    tally.add_if(body == 6, Group::DvsecBodies, first + 2);
    tally.add_if(at + 0x0A + body == 0x1000, Group::DvsecBodies, first + 3);
    tally.add_if(at == 0x100 && body == 0xEF6, Group::DvsecBodies, first + 4);
    tally.add_if(at == 0xFF4, Group::DvsecBodies, first + 5);
    if question == Question::Fields {
        tally.add(Group::DvsecOffsets, (at - 0x100) / 4);
        tally.add(Group::DvsecRevisions, (header >> 16 & 0xF) as usize);
    }
}
