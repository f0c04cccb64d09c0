//! The classes of a call of `write_request`, from its inputs and the model's answer.

use thawribbon::raw::{Parts, Written};

use super::alone::only;
use super::group::Group;
use super::tally::Tally;
use crate::generate::{AskCase, KINDS, is_write};

/// A call of `write_request` and what the model made of it. The buffer is as lent.
pub struct AskView<'call> {
    pub case: AskCase,
    pub written: Written,
    pub buffer: &'call [u8],
}

/// How many causes there are.
const CAUSES: usize = 8;

/// One for each cause of 1 and then that of 2, in the order of the group's names. Of a kind outside the six no length is
/// known but that it is 12 bytes at least.
fn causes(case: &AskCase) -> [bool; CAUSES] {
    let Parts { kind, offset, .. } = case.parts;
    let known = KINDS.contains(&kind);
    let needed = if known && is_write(kind) { 16 } else { 12 };
    let but_for_bit_7 = kind >= 0x80 && KINDS.contains(&(kind - 0x80));
    [
        but_for_bit_7,
        !known && !but_for_bit_7,
        case.parts.device > 31,
        case.parts.function > 7,
        offset > 0xFFC,
        offset % 4 != 0,
        case.parts.enables > 15,
        case.buffer_length < needed,
    ]
}

/// Counts a call in all its classes. Where its inputs call for another answer than the model gave, the run stops.
pub fn count(view: &AskView<'_>, tally: &mut Tally) {
    let causes = causes(&view.case);
    let [ones @ .., room] = causes;
    let number = if ones.contains(&true) { 1 } else { 2 * u8::from(room) };
    assert_eq!(
        number, view.written.number,
        "the model and the causes disagree on a request to be written"
    );
    tally.add(Group::WriteAnswers, number.into());
    if number != 1 {
        let place = KINDS.iter().position(|&kind| kind == view.case.parts.kind);
        let kind = place.expect("one of the six kinds");
        tally.add(Group::WriteRooms, 26 * kind + view.case.buffer_length.min(25));
    }
    match only(&causes) {
        _ if number == 0 => count_written(view, tally),
        Some(cause) => count_alone(cause, &view.case.parts, tally),
        None => count_together(&causes, tally),
    }
}

/// Counts a call with one cause, by the value that is at fault.
fn count_alone(cause: usize, parts: &Parts, tally: &mut Tally) {
    tally.add(Group::WriteCauses, cause);
    match cause {
        0 | 1 => {
            let below = KINDS.iter().filter(|&&kind| kind < parts.kind).count();
            tally.add(Group::WriteKinds, usize::from(parts.kind) - below);
        }
        2 => tally.add(Group::WriteDevices, usize::from(parts.device) - 32),
        3 => tally.add(Group::WriteFunctions, usize::from(parts.function) - 8),
        4 => tally.add(Group::WriteOver, over(parts.offset)),
        5 => {
            let (page, remainder) = (parts.offset / 256, parts.offset % 4);
            tally.add(Group::WriteUnaligned, (3 * page + remainder) as usize - 1);
        }
        6 => tally.add(Group::WriteOverEnables, usize::from(parts.enables) - 16),
        _ => {}
    }
}

/// The one of the 20 bits above the twelve that an offset over FFCh has; behind these, one place for several.
const fn over(offset: u32) -> usize {
    let high = offset >> 12;
    if high.is_power_of_two() {
        high.trailing_zeros() as usize
    } else {
        20
    }
}

/// Counts a call with just two causes, either sort of a wrong kind as the same.
fn count_together(causes: &[bool; CAUSES], tally: &mut Tally) {
    let present: Vec<usize> = (0..CAUSES).filter(|&place| causes[place]).collect();
    if let [first, second] = present[..] {
        let (first, second) = (first.saturating_sub(1), second - 1);
        tally.add(Group::WriteTogether, second * (second - 1) / 2 + first);
    }
}

/// Counts a request that is written, after a look at all its bytes.
fn count_written(view: &AskView<'_>, tally: &mut Tally) {
    let parts = &view.case.parts;
    let bytes = &view.buffer[..view.written.length];
    assert!(
        is_request(parts, bytes),
        "the model and the parts disagree on what is written"
    );
    let writes = usize::from(is_write(parts.kind));
    let kind = KINDS.iter().position(|&kind| kind == parts.kind);
    let kind = kind.expect("one of the six kinds");
    tally.add(Group::WriteOffsets, 1024 * writes + parts.offset as usize / 4);
    tally.add(Group::WriteEnables, 16 * kind + usize::from(parts.enables));
    tally.add(Group::WriteTargets, bytes[9].into());
    tally.add(Group::WriteBuses, parts.bus.into());
    let free = [&parts.requester[..], &[parts.tag], &parts.data].concat();
    count_bits(&free, Group::WriteBits, 112 * writes, tally);
}

/// Counts each bit of some bytes as it is, clear or set, in the classes of a group from the first on.
pub fn count_bits(bytes: &[u8], group: Group, first: usize, tally: &mut Tally) {
    for (place, byte) in bytes.iter().enumerate() {
        for bit in 0..8 {
            let is_set = usize::from(byte >> bit & 1);
            tally.add(group, first + 2 * (8 * place + bit) + is_set);
        }
    }
}

/// Whether bytes are a request of these parts, read by document 01's arithmetic. Every bit of every byte is looked at.
fn is_request(parts: &Parts, bytes: &[u8]) -> bool {
    let at = |place: usize| u32::from(bytes[place]);
    let data: &[u8] = if is_write(parts.kind) { &parts.data } else { &[] };
    bytes[..4] == [parts.kind, 0, 0, 1]
        && bytes[4..6] == parts.requester
        && bytes[6] == parts.tag
        && bytes[7] == parts.enables
        && bytes[8] == parts.bus
        && at(9) == 8 * u32::from(parts.device) + u32::from(parts.function)
        && 256 * at(10) + at(11) == parts.offset
        && bytes[12..] == *data
}
