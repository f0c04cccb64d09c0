//! The classes of a call of `read_completion`, from its bytes and the model's answer.

use thawribbon::raw::Heard;

use super::ask::count_bits;
use super::ask_names::Hearing;
use super::group::Group;
use super::tally::Tally;
use crate::generate::{FIXED_PLACES, UNSUPPORTED, WITH_DATA, WITHOUT_DATA, has_there, reply_length};

/// What a completion has against it.
struct Causes {
    short: bool,
    first_byte: bool,
    length: bool,
    /// The places of [`FIXED_PLACES`] at which no reply has such a byte.
    fixed_bytes: Vec<usize>,
}

impl Causes {
    /// Of a completion that is too short or has another first byte, what depends on that is looked for as far as it is
    /// there: a byte counts as wrong where it would be wrong after either of the two first bytes.
    fn of(bytes: &[u8]) -> Self {
        let short = bytes.len() < 12;
        let first = bytes.first().copied();
        let known = matches!(first, Some(WITH_DATA | WITHOUT_DATA));
        let is_wrong = |&place: &usize| match bytes.get(FIXED_PLACES[place]) {
            None => false,
            Some(&byte) if known => !has_there(bytes[0], FIXED_PLACES[place], byte),
            Some(&byte) => [WITH_DATA, WITHOUT_DATA]
                .iter()
                .all(|&first| !has_there(first, FIXED_PLACES[place], byte)),
        };
        Self {
            short,
            first_byte: first.is_some() && !known,
            length: known && !short && bytes.len() != reply_length(bytes[0]),
            fixed_bytes: (0..FIXED_PLACES.len()).filter(is_wrong).collect(),
        }
    }

    /// What comes of the lowest cause, if there is any.
    fn lowest(&self) -> Option<Hearing> {
        match self {
            Self { short: true, .. } => Some(Hearing::Short),
            Self { first_byte: true, .. } => Some(Hearing::FirstByte),
            Self { length: true, .. } => Some(Hearing::Length),
            Self { fixed_bytes, .. } if !fixed_bytes.is_empty() => Some(Hearing::FixedByte),
            _ => None,
        }
    }
}

/// Counts a call in all its classes. Where its bytes call for another answer than the model gave, the run stops.
pub fn count(bytes: &[u8], heard: Heard, tally: &mut Tally) {
    let causes = Causes::of(bytes);
    let hearing = causes.lowest().unwrap_or_else(|| said(bytes));
    let due = due(bytes, hearing);
    assert_eq!(due, heard, "the model and the bytes disagree on a completion");
    tally.add(Group::HearAnswers, hearing as usize);
    tally.add(Group::HearLengths, length_place(bytes));
    match causes.lowest() {
        None => count_free(bytes, hearing, tally),
        Some(_) => count_refused(bytes, &causes, tally),
    }
}

/// What a completion says that has nothing against it.
fn said(bytes: &[u8]) -> Hearing {
    match (bytes[0], bytes[6]) {
        (WITH_DATA, _) => Hearing::WithData,
        (_, UNSUPPORTED) => Hearing::Unsupported,
        _ => Hearing::WithoutData,
    }
}

/// The answer that is due.
fn due(bytes: &[u8], hearing: Hearing) -> Heard {
    let (number, said) = match hearing {
        Hearing::WithData => (0, 1),
        Hearing::WithoutData => (0, 2),
        Hearing::Unsupported => (0, 3),
        refused => (refused as u8, 0),
    };
    if number != 0 {
        return Heard {
            number,
            ..Heard::default()
        };
    }
    let pair = |place: usize| [bytes[place], bytes[place + 1]];
    Heard {
        number,
        said,
        completer: pair(4),
        requester: pair(8),
        tag: bytes[10],
        data: bytes.last_chunk().copied().filter(|_| said == 1).unwrap_or_default(),
    }
}

/// A completion's length by its first byte: 0Ah, 4Ah or another. Behind 20 bytes all lengths are one.
fn length_place(bytes: &[u8]) -> usize {
    let Some(first) = bytes.first() else {
        return 0;
    };
    let sort = match *first {
        WITHOUT_DATA => 0,
        WITH_DATA => 1,
        _ => 2,
    };
    21 * sort + bytes.len().min(21)
}

/// Counts the bits that are free, by what the completion says: completer, requester and tag, and then the data.
fn count_free(bytes: &[u8], hearing: Hearing, tally: &mut Tally) {
    let free = [&bytes[4..6], &bytes[8..11], &bytes[12..]].concat();
    let first = match hearing {
        Hearing::WithoutData => 0,
        Hearing::Unsupported => 80,
        _ => 160,
    };
    count_bits(&free, Group::HearFree, first, tally);
}

/// Counts a completion by the one cause that it has, or by two.
fn count_refused(bytes: &[u8], causes: &Causes, tally: &mut Tally) {
    let form = 7 * usize::from(bytes.first() == Some(&WITH_DATA));
    let Causes {
        short,
        first_byte,
        length,
        ref fixed_bytes,
    } = *causes;
    match (short, first_byte, length, &fixed_bytes[..]) {
        (true, false, _, []) => tally.add(Group::HearCauses, 0),
        (false, true, _, []) => {
            tally.add(Group::HearCauses, 1);
            let below = [WITH_DATA, WITHOUT_DATA]
                .iter()
                .filter(|&&first| first < bytes[0])
                .count();
            tally.add(Group::HearFirstBytes, usize::from(bytes[0]) - below);
        }
        (false, false, true, []) => tally.add(Group::HearCauses, 2 + form),
        (false, false, false, &[place]) => {
            tally.add(Group::HearCauses, 3 + form + place);
            tally.add(Group::HearFixedBytes, fixed_byte(bytes, place));
        }
        (true, true, _, []) => tally.add(Group::HearTogether, 0),
        (true, false, _, [_]) => tally.add(Group::HearTogether, 1),
        (false, true, _, [_]) => tally.add(Group::HearTogether, 2),
        (false, false, true, [_]) => tally.add(Group::HearTogether, 3),
        (false, false, false, [_, _]) => tally.add(Group::HearTogether, 4),
        _ => {}
    }
}

/// The place of a wrong value among all that a reply has not at a fixed place: 255 at each, but for the status of a reply
/// without data, which has two and stands last.
fn fixed_byte(bytes: &[u8], place: usize) -> usize {
    let (first, byte) = (bytes[0], bytes[FIXED_PLACES[place]]);
    let right_below = (0..byte)
        .filter(|&right| has_there(first, FIXED_PLACES[place], right))
        .count();
    let value = usize::from(byte) - right_below;
    match (first, FIXED_PLACES[place]) {
        (WITH_DATA, _) => 255 * place + value,
        (_, 6) => 255 * 11 + value,
        (_, 7 | 11) => 255 * (5 + place) + value,
        _ => 255 * (6 + place) + value,
    }
}

#[cfg(test)]
mod tests {
    use super::{FIXED_PLACES, fixed_byte, has_there};

    #[test]
    fn every_wrong_byte_has_its_place() {
        let mut met = vec![false; 255 * 11 + 254];
        for first in [0x4A, 0x0A] {
            for (place, at) in FIXED_PLACES.into_iter().enumerate() {
                for byte in (0..=255).filter(|&byte| !has_there(first, at, byte)) {
                    let mut bytes = [first; 16];
                    bytes[at] = byte;
                    assert!(!std::mem::replace(&mut met[fixed_byte(&bytes, place)], true));
                }
            }
        }
        assert!(met.iter().all(|&met| met));
    }
}
