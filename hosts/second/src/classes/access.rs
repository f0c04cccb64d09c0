//! The classes of an accepted packet: its form, its causes of Unsupported Request, or what its success reached.

use super::alone::only;
use super::edition::code_place;
use super::group::Group;
use super::marked::{count_forms, count_marked, count_marked_unsupported};
use super::names::{Captures, Correlation};
use super::serve::{History, ServeView};
use super::tally::Tally;
use super::whole::count_whole;
use crate::generate::ServeCase;
use crate::twin::word;

/// The enabled bytes' bits.
pub const fn enabled(enables: u8) -> u32 {
    let spread =
        (enables & 1) as u32 | (enables as u32 & 2) << 7 | (enables as u32 & 4) << 14 | (enables as u32 & 8) << 21;
    spread * 0xFF
}

/// A packet of number 0, or one that would have it were bit 7 ignored, taken apart.
pub struct Parts {
    code: u8,
    /// Bit 7 of the first byte, poison and the digest bit, as a number of three bits from the lowest on.
    pub form: usize,
    pub trusted: bool,
    pub writes: bool,
    poisoned: bool,
    pub enables: u8,
    bus: u8,
    device: u8,
    function: u8,
    pub offset: usize,
    pub data: u32,
}

impl Parts {
    /// The parts of a packet with one of the six type codes, whatever its bit 7.
    pub fn of(bytes: &[u8; 24]) -> Self {
        let code = bytes[0] & 0x7F;
        Self {
            code,
            form: usize::from(bytes[0] >> 7) | usize::from(bytes[2] >> 6) << 1,
            trusted: code & 0x3F == 0x1B,
            writes: code & 0x40 != 0,
            poisoned: bytes[2] & 0x40 != 0,
            enables: bytes[7] & 0x0F,
            bus: bytes[8],
            device: bytes[9] >> 3,
            function: bytes[9] & 7,
            offset: 256 * (usize::from(bytes[10]) % 16) + 4 * (usize::from(bytes[11]) / 4),
            data: word(bytes, 12),
        }
    }

    /// The place of the access among ordinary read, ordinary write, trusted read, trusted write.
    const fn access(&self) -> usize {
        2 * self.trusted as usize + self.writes as usize
    }

    /// The bus and the device that it is for.
    pub const fn target(&self) -> (u8, u8) {
        (self.bus, self.device)
    }

    /// Whether an ordinary packet asks for the word at A.
    pub const fn is_at_a(&self, view: &ServeView<'_>) -> bool {
        !self.trusted && self.offset == view.case.description.a as usize
    }
}

/// Counts a call of number 0, and takes it into the board's history.
pub fn count_accepted(view: &ServeView<'_>, history: &mut History, tally: &mut Tally) {
    let bytes = &view.case.packet.bytes;
    let parts = Parts::of(bytes);
    let code = code_place(bytes[0]);
    tally.add(
        Group::TypeForms,
        type_form(view.case.description.edition, code, parts.form),
    );
    count_forms(view, tally);
    let causes = unsupported_causes(view.case, &parts);
    let unsupported = causes.contains(&true);
    assert_eq!(
        unsupported,
        view.reply[6] == 0x20,
        "the model and the causes disagree on Unsupported Request"
    );
    if unsupported {
        count_unsupported(view, &causes, &parts, tally);
    } else {
        match view.case.description.edition {
            1 => count_reserved(bytes, &RESERVED, Group::ReservedBits, 0, tally),
            _ => count_reserved(bytes, &RESERVED[1..], Group::ReservedBits, 15, tally),
        }
        count_success(view, &parts, tally);
        // First, as the other two forget what has been shown at A.
        count_whole(view, &parts, history, tally);
        count_correlation(view, &parts, history, tally);
        count_marked(view, &parts, history, tally);
        count_capture(view, &parts, tally);
    }
}

/// The place of a type code and a form, in edition 1 with bit 7 clear and set, and in edition 2 with bit 7 clear.
const fn type_form(edition: u32, code: usize, form: usize) -> usize {
    match edition {
        1 => 8 * code + form,
        _ => 48 + 4 * code + form / 2,
    }
}

/// The causes of Unsupported Request that a request has, in the order of the group's names.
pub fn unsupported_causes(case: &ServeCase, parts: &Parts) -> [bool; 7] {
    let kept = case.kept;
    let type1 = parts.code & 0x3F == 0x05;
    let captured = kept.captured != 0;
    let other_function = parts.function != case.description.function;
    let compared = parts.trusted && captured;
    [
        type1,
        !type1 && !parts.trusted && other_function,
        parts.trusted && !captured,
        compared && parts.bus != kept.bus,
        compared && parts.device != kept.device,
        parts.trusted && other_function,
        parts.poisoned && parts.writes,
    ]
}

/// Counts a call whose request has one cause of Unsupported Request and no other.
fn count_unsupported(view: &ServeView<'_>, causes: &[bool; 7], parts: &Parts, tally: &mut Tally) {
    if let Some(cause) = only(causes) {
        let second = if cause == 6 { parts.trusted } else { parts.writes };
        tally.add(Group::Unsupported, 2 * cause + usize::from(second));
        count_marked_unsupported(view, parts, cause, tally);
    }
}

/// Reserved bits: byte 0 bit 7; byte 1 bits 7 and 3:0; byte 2 bits 3:2; byte 10 bits 7:4; byte 11 bits 1:0. Under edition
/// 2 the first is none.
pub const RESERVED: [(usize, u8); 5] = [(0, 0x80), (1, 0x8F), (2, 0x0C), (10, 0xF0), (11, 0x03)];

/// Each of these reserved bits is counted where it is set, in the classes of a group from the first on, and then all of
/// them where all are set.
pub fn count_reserved(bytes: &[u8; 24], reserved: &[(usize, u8)], group: Group, first: usize, tally: &mut Tally) {
    let mut class = first;
    let mut all = true;
    for &(place, mask) in reserved {
        for bit in (0..8).filter(|bit| mask >> bit & 1 == 1) {
            tally.add_if(bytes[place] >> bit & 1 == 1, group, class);
            class += 1;
        }
        all &= bytes[place] & mask == mask;
    }
    tally.add_if(all, group, class);
}

fn count_success(view: &ServeView<'_>, parts: &Parts, tally: &mut Tally) {
    tally.add(Group::Enables, 16 * parts.access() + usize::from(parts.enables));
    tally.add(Group::Functions, 8 * parts.access() + usize::from(parts.function));
    let place = parts.offset / 4;
    match parts.access() {
        0 => tally.add(Group::OrdinaryReads, place),
        1 => count_write(view, parts, Group::OrdinaryWrites, tally),
        2 => tally.add(Group::TrustedReads, place),
        _ => count_write(view, parts, Group::TrustedWrites, tally),
    }
    tally.add_if(parts.poisoned, Group::PoisonedReads, parts.trusted.into());
}

/// Counts a successful write by the rules of its enabled bytes, and by its word where that was changed.
fn count_write(view: &ServeView<'_>, parts: &Parts, words: Group, tally: &mut Tally) {
    let ([before, after], (rules, _)) = (view.spaces(parts.trusted), view.ruled(parts.trusted));
    let [old, new, rule] = [before, after, rules].map(|bytes| word(bytes, parts.offset));
    let mask = enabled(parts.enables);
    if mask != 0 && !parts.is_at_a(view) {
        let first = 4 * usize::from(parts.trusted);
        let sort = match rule & mask {
            0 => 0,
            all if all == mask => 1,
            _ => 2,
        };
        tally.add(Group::Rules, first + sort);
        let neither = (new ^ old) & mask != 0 && (new ^ parts.data) & mask != 0;
        tally.add_if(neither, Group::Rules, first + 3);
    }
    tally.add_if(new != old, words, parts.offset / 4);
}

fn count_correlation(view: &ServeView<'_>, parts: &Parts, history: &mut History, tally: &mut Tally) {
    let (a, b) = (view.case.description.a as usize, view.case.description.b as usize);
    let class = match (parts.access(), parts.offset == a, parts.offset == b) {
        (0, true, _) => return count_read_at_a(view, history, tally),
        (1, true, _) => Correlation::OrdinaryWriteAtA,
        (2, _, true) => Correlation::TrustedReadAtB,
        (3, _, true) => Correlation::TrustedWriteAtB,
        (0, _, true) => Correlation::OrdinaryReadAtOffsetB,
        (1, _, true) => Correlation::OrdinaryWriteAtOffsetB,
        (2, true, _) => Correlation::TrustedReadAtOffsetA,
        (3, true, _) => Correlation::TrustedWriteAtOffsetA,
        _ => return,
    };
    tally.add(Group::Correlation, class as usize);
    match class {
        Correlation::TrustedReadAtB => history.b_read = true,
        Correlation::TrustedWriteAtB => history.b_changed |= word(view.trusted_before, b) ^ word(view.trusted_after, b),
        _ => {}
    }
}

/// Counts an ordinary read at A. It shows the whole word, whatever its enables.
fn count_read_at_a(view: &ServeView<'_>, history: &mut History, tally: &mut Tally) {
    let (a, b) = (view.case.description.a as usize, view.case.description.b as usize);
    let stale = word(view.ordinary_before, a) != word(view.trusted_before, b);
    let mut add_if = |condition, class| tally.add_if(condition, Group::Correlation, class as usize);
    add_if(true, Correlation::OrdinaryReadAtA);
    add_if(history.b_read, Correlation::TrustedReadThenShown);
    add_if(history.b_changed != 0, Correlation::TrustedWriteThenShown);
    add_if(stale, Correlation::StaleBytesAtA);
    add_if(a == b, Correlation::AIsB);
    add_if(a == 0x104, Correlation::AIsLowest);
    add_if(a == 0xFFC, Correlation::AIsHighest);
    add_if(b == 0x00C, Correlation::BIsLowest);
    add_if(b == 0xFFC, Correlation::BIsHighest);
    history.b_read = false;
    history.b_changed = 0;
}

fn count_capture(view: &ServeView<'_>, parts: &Parts, tally: &mut Tally) {
    let kept = view.case.kept;
    let target = (parts.bus, parts.device);
    let captures = parts.access() == 1;
    if captures {
        tally.add(Group::CapturedBuses, parts.bus.into());
        tally.add(Group::CapturedDevices, parts.device.into());
    }
    let mut add_if = |condition, class| tally.add_if(condition, Group::Captures, class as usize);
    add_if(parts.access() == 3, Captures::TrustedWriteLeavesIt);
    add_if(parts.trusted && target == (0, 0), Captures::TrustedForTheLeast);
    add_if(captures && target == (0, 0), Captures::OfTheLeast);
    add_if(captures && target == (255, 31), Captures::OfTheMost);
    add_if(captures && parts.enables == 0, Captures::NoByteEnabled);
    add_if(
        captures && parts.offset == view.case.description.a as usize,
        Captures::ByAWriteAtA,
    );
    let change = match (kept.captured != 0, parts.bus != kept.bus, parts.device != kept.device) {
        (false, _, _) => Captures::FromNothing,
        (true, true, false) => Captures::AnotherBus,
        (true, false, true) => Captures::AnotherDevice,
        (true, true, true) => Captures::AnotherBusAndDevice,
        (true, false, false) => Captures::TheSame,
    };
    add_if(captures, change);
}
