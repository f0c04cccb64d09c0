//! The classes of a call of `serve`, from its inputs and the model's answer.

use thawribbon::raw::Served;

use super::access::count_accepted;
use super::causes::count_causes;
use super::edition::{count_editions, is_trusted};
use super::group::Group;
use super::names::{Captures, KeptForm};
use super::tally::Tally;
use crate::generate::{MARKS_LENGTHS, NAMED_LENGTHS, ServeCase, marks_length_place, named_length_place};

/// A call of `serve` and what the model made of it. The spaces are as lent.
pub struct ServeView<'call> {
    pub case: &'call ServeCase,
    pub ordinary_before: &'call [u8],
    pub ordinary_after: &'call [u8],
    pub ordinary_rules: &'call [u8],
    pub ordinary_marks: &'call [u8],
    pub trusted_before: &'call [u8],
    pub trusted_after: &'call [u8],
    pub trusted_rules: &'call [u8],
    pub trusted_marks: &'call [u8],
    pub served: Served,
    pub reply: &'call [u8],
}

impl ServeView<'_> {
    /// The trusted space before and after, or the ordinary one.
    pub const fn spaces(&self, trusted: bool) -> [&[u8]; 2] {
        if trusted {
            [self.trusted_before, self.trusted_after]
        } else {
            [self.ordinary_before, self.ordinary_after]
        }
    }

    /// The rules and the marks of the trusted space, or of the ordinary one.
    pub const fn ruled(&self, trusted: bool) -> (&[u8], &[u8]) {
        if trusted {
            (self.trusted_rules, self.trusted_marks)
        } else {
            (self.ordinary_rules, self.ordinary_marks)
        }
    }
}

/// What happened on the board before this call.
#[derive(Clone, Copy, Default)]
pub struct History {
    /// The number of the call before, 0 where there was none.
    last_number: u8,
    /// Whether the trusted word at B was read since it was last shown at A.
    pub b_read: bool,
    /// The bits of the trusted word at B that were changed since they were last shown at A.
    pub b_changed: u32,
    /// The marked bits of the trusted word at B that were cleared since they were last shown at A.
    pub b_cleared: u32,
    /// The word of the ordinary space, and that of the trusted one, that a write last changed, and which of its bits.
    pub last_changes: [(usize, u32); 2],
}

impl History {
    /// The bits of a word that were changed by the last write that changed anything in its space.
    pub const fn last_changed(&self, trusted: bool, offset: usize) -> u32 {
        let (at, bits) = self.last_changes[trusted as usize];
        if at == offset { bits } else { 0 }
    }
}

/// Counts a call in all its classes, and takes it into the board's history.
pub fn count(view: &ServeView<'_>, history: &mut History, tally: &mut Tally) {
    let number = view.served.number;
    tally.add(Group::ServeAnswers, number.into());
    count_lengths(view.case, tally);
    count_kept(view, tally);
    count_causes(view, number, tally);
    count_editions(view, tally);
    if number == 0 {
        if history.last_number != 0 {
            tally.add(Group::AfterRefusal, usize::from(history.last_number) - 1);
        }
        count_accepted(view, history, tally);
    }
    history.last_number = number;
}

fn count_lengths(case: &ServeCase, tally: &mut Tally) {
    let (spaces, marks) = case.lengths.split_at(4);
    for (space, &length) in spaces.iter().enumerate() {
        if let Some(place) = named_length_place(length) {
            tally.add(Group::SpaceLengths, space * NAMED_LENGTHS + place);
        }
    }
    for (space, &length) in marks.iter().enumerate() {
        if let Some(place) = marks_length_place(length) {
            tally.add(Group::MarksLengths, space * MARKS_LENGTHS + place);
        }
    }
    tally.add(Group::ReplyLengths, case.reply_length.min(21));
    match case.packet.as_slice() {
        [first, rest @ ..] if is_trusted(*first, case.description.edition) => {
            tally.add(Group::TrustedPacketLengths, rest.len());
        }
        bytes => tally.add(Group::OrdinaryPacketLengths, bytes.len()),
    }
}

fn count_kept(view: &ServeView<'_>, tally: &mut Tally) {
    let kept = view.case.kept;
    let served = view.served.number == 0;
    if kept.captured > 1 {
        let form = if served {
            KeptForm::OverOneServed
        } else {
            KeptForm::OverOneRefused
        };
        tally.add(Group::KeptForms, form as usize);
    }
    if kept.captured != 0 {
        return;
    }
    let mut add_if = |condition, form| tally.add_if(condition, Group::KeptForms, form as usize);
    add_if(served && kept.device > 31, KeptForm::NothingWithDeviceOver31Served);
    add_if(
        !served && (kept.bus, kept.device) != (0, 0),
        KeptForm::NothingWithBytesRefused,
    );
    let packet = &view.case.packet.bytes;
    let trusted = served && packet[0] & 0x3F == 0x1B;
    let target = (packet[8], packet[9] >> 3);
    add_if(
        trusted && target == (kept.bus, kept.device),
        KeptForm::NothingWithTheRequestsBytes,
    );
    add_if(trusted && target == (0, 0), KeptForm::NothingAndRequestForTheLeast);
}

/// Counts a call of `reset`.
pub fn count_reset(captured: bool, noise: bool, tally: &mut Tally) {
    let class = if captured {
        Captures::ResetForgets
    } else {
        Captures::ResetOfNothing
    };
    tally.add(Group::Captures, class as usize);
    tally.add_if(noise, Group::Noise, 1);
}
