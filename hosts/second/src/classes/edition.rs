//! The classes of request 9/13: a board's edition, and bit 7 of a packet's first byte.

use super::access::{Parts, enabled, unsupported_causes};
use super::alone::only;
use super::answers::{Answers, OF_SORTS, REFUSED, SORTS, answer, count, place};
use super::edition_names::Instead;
use super::group::Group;
use super::serve::ServeView;
use super::tally::Tally;
use crate::generate::{Packet, ServeCase, WRONG_EDITIONS};
use crate::twin::word;

const CODES: [u8; 6] = [0x04, 0x44, 0x05, 0x45, 0x1B, 0x5B];
/// The place of a first byte that has none of the six type codes.
const OTHER: usize = CODES.len();

/// The place of a first byte's type code, whatever its bit 7.
pub fn code_place(first: u8) -> usize {
    CODES.iter().position(|&code| code == first & 0x7F).unwrap_or(OTHER)
}

/// Whether bit 7 of the first byte is set.
pub const fn has_bit_7(first: u8) -> bool {
    first >= 0x80
}

/// Whether a packet with this first byte is trusted: under edition 2 not with bit 7 set.
pub const fn is_trusted(first: u8, edition: u32) -> bool {
    match first {
        0x1B | 0x5B => true,
        0x9B | 0xDB => edition != 2,
        _ => false,
    }
}

/// What the six type codes and others may be answered: in edition 1 with bit 7 clear and set, then in edition 2.
const SETS: [Answers; 4 * SORTS] = {
    let mut sets = [REFUSED; 4 * SORTS];
    let mut place = 0;
    while place < 3 * SORTS {
        sets[place] = OF_SORTS[place % SORTS];
        place += 1;
    }
    sets
};

/// How many classes there are for what was answered in both editions. Those of the empty packet are the last six.
pub const ANSWERS: usize = count(&SETS) + 6;

/// The set of what may be answered to a first byte.
pub fn set_place(edition: u32, first: u8) -> usize {
    let block = 2 * (edition as usize - 1) + usize::from(has_bit_7(first));
    SORTS * block + code_place(first)
}

/// Counts a call of a board whose edition is one of the two. Where the model answers what no packet with such a first byte
/// may be given, the run stops.
pub fn count_editions(view: &ServeView<'_>, tally: &mut Tally) {
    let (edition, number) = (view.case.description.edition, usize::from(view.served.number));
    if !matches!(edition, 1 | 2) {
        return;
    }
    let Some(&first) = view.case.packet.as_slice().first() else {
        assert!(
            (1..=3).contains(&number),
            "the model and the editions disagree on the empty packet"
        );
        return tally.add(
            Group::EditionAnswers,
            ANSWERS - 6 + 3 * (edition as usize - 1) + number - 1,
        );
    };
    let place = place(&SETS, set_place(edition, first), answer(view.served.number, view.reply));
    tally.add(
        Group::EditionAnswers,
        place.expect("what is answered is what the edition lets be"),
    );
    if has_bit_7(first) && !matches!(number, 1 | 2) {
        tally.add(Group::Bit7Lengths, length_place(edition, &view.case.packet));
    }
}

/// The place of a packet with bit 7 set by the edition, by whether its type code is ordinary, trusted or none of the six,
/// and by its length from 1 to 24 on.
fn length_place(edition: u32, packet: &Packet) -> usize {
    let sort = match code_place(packet.bytes[0]) {
        0..=3 => 0,
        OTHER => 2,
        _ => 1,
    };
    24 * (3 * (edition as usize - 1) + sort) + packet.length - 1
}

/// Counts a call whose only fault is its edition.
pub fn count_wrong_edition(case: &ServeCase, tally: &mut Tally) {
    let first = case.packet.bytes[0];
    let bit_7 = usize::from(has_bit_7(first));
    let named = WRONG_EDITIONS
        .iter()
        .position(|&wrong| wrong == case.description.edition);
    if let Some(place) = named {
        tally.add(Group::WrongEditions, 2 * place + bit_7);
    }
    tally.add(Group::WrongEditionKinds, 2 * code_place(first) + bit_7);
}

/// Counts a call whose only fault is bit 7 under edition 2: by the packet's form, and by what would have become of it were
/// bit 7 ignored.
pub fn count_bit_7(view: &ServeView<'_>, tally: &mut Tally) {
    let bytes = &view.case.packet.bytes;
    let form = usize::from(bytes[2] >> 6);
    tally.add(Group::Bit7Forms, 4 * code_place(bytes[0]) + form);
    let parts = Parts::of(bytes);
    let causes = unsupported_causes(view.case, &parts);
    match only(&causes) {
        Some(cause) => {
            let second = if cause == 6 { parts.trusted } else { parts.writes };
            tally.add(Group::Bit7Unsupported, 2 * cause + usize::from(second));
        }
        None if !causes.contains(&true) => count_instead(view, &parts, tally),
        None => {}
    }
}

/// Counts a packet that would have been a success.
fn count_instead(view: &ServeView<'_>, parts: &Parts, tally: &mut Tally) {
    let at_a = parts.is_at_a(view);
    let at_b = parts.offset == view.case.description.b as usize;
    let ([space, _], (rules, marks)) = (view.spaces(parts.trusted), view.ruled(parts.trusted));
    let [old, rule, mark] = [space, rules, marks].map(|bytes| word(bytes, parts.offset));
    let mask = enabled(parts.enables);
    let changes = rule & mask & (old ^ parts.data) != 0;
    let clears = mark & mask & old & parts.data != 0;
    let mut add_if = |condition, instead| tally.add_if(condition, Group::Bit7Instead, instead as usize);
    match (parts.trusted, parts.writes) {
        (false, false) => {
            add_if(!at_a, Instead::OrdinaryRead);
            add_if(at_a, Instead::OrdinaryReadAtA);
        }
        (false, true) => {
            add_if(changes && !at_a, Instead::OrdinaryWrite);
            add_if(at_a, Instead::OrdinaryWriteAtA);
            add_if(clears && !at_a, Instead::OrdinaryClearing);
            let kept = view.case.kept;
            add_if(kept.captured == 0, Instead::CaptureFromNothing);
            let another = kept.captured != 0 && parts.target() != (kept.bus, kept.device);
            add_if(another, Instead::AnotherCapture);
        }
        (true, false) => {
            add_if(!at_b, Instead::TrustedRead);
            add_if(at_b, Instead::TrustedReadAtB);
        }
        (true, true) => {
            add_if(changes && !at_b, Instead::TrustedWrite);
            add_if(changes && at_b, Instead::TrustedWriteAtB);
            add_if(clears, Instead::TrustedClearing);
        }
    }
}

/// Counts a call that is 4 for bit 7 under edition 2, and would be 5 or 6 were bit 7 ignored.
pub fn count_later(first: u8, number: u8, tally: &mut Tally) {
    tally.add(Group::Bit7Later, 2 * code_place(first) + usize::from(number == 6));
}

#[cfg(test)]
mod tests {
    use super::{SETS, place, set_place};

    #[test]
    fn a_packet_with_bit_7_is_answered_1_to_4_under_edition_2() {
        for code in [0x00, 0x04, 0x44, 0x05, 0x45, 0x1B, 0x5B] {
            let answered = |edition, first| (0..8).map(move |answer| place(&SETS, set_place(edition, first), answer));
            let due = [false, false, true, true, true, true, false, false];
            assert!(answered(2, code | 0x80).map(|place| place.is_some()).eq(due));
            let alike = |edition, first| answered(edition, first).map(|place| place.is_some());
            assert!(alike(1, code | 0x80).eq(alike(1, code)) && alike(2, code).eq(alike(1, code)));
        }
    }
}
