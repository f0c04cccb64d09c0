//! The classes of an accepted packet that has to do with bits that are cleared by writing 1.

use super::access::{Parts, enabled};
use super::group::Group;
use super::marked_names::{Met, MetAt};
use super::serve::{History, ServeView};
use super::tally::Tally;
use crate::twin::word;

/// The word that a packet asks for, in its own space, and its marks in the other one.
struct Word {
    old: u32,
    new: u32,
    rule: u32,
    mark: u32,
    other_mark: u32,
    data: u32,
    mask: u32,
}

impl Word {
    fn of(view: &ServeView<'_>, parts: &Parts) -> Self {
        let (rules, marks) = view.ruled(parts.trusted);
        let (_, other_marks) = view.ruled(!parts.trusted);
        let [before, after] = view.spaces(parts.trusted);
        Self {
            old: word(before, parts.offset),
            new: word(after, parts.offset),
            rule: word(rules, parts.offset),
            mark: word(marks, parts.offset),
            other_mark: word(other_marks, parts.offset),
            data: parts.data,
            mask: enabled(parts.enables),
        }
    }

    /// The marked bits that a write clears; that stay, the data bit being 0; that stay, the byte not being enabled; that
    /// are 0 already.
    const fn sorts(&self) -> [u32; 4] {
        let (one, zero) = (self.mark & self.old, self.mark & !self.old);
        [
            one & self.mask & self.data,
            one & self.mask & !self.data,
            one & !self.mask & self.data,
            zero & self.mask & self.data,
        ]
    }
}

/// Counts a board that serves by the form of the marks of both spaces.
pub fn count_forms(view: &ServeView<'_>, tally: &mut Tally) {
    for (space, trusted) in [false, true].into_iter().enumerate() {
        let (rules, marks) = view.ruled(trusted);
        let either = rules
            .iter()
            .zip(marks)
            .fold(0xFF, |all, (rule, mark)| all & (rule | mark));
        let some = marks.iter().fold(0x00, |some, mark| some | mark);
        let form = match (some, either) {
            (0x00, _) => 0,
            (_, 0xFF) => 1,
            _ => 2,
        };
        tally.add(Group::MarksForms, 3 * space + form);
    }
}

/// Counts a success. A write at A has no marks of its own, and a read shows the marked bits of all four bytes.
pub fn count_marked(view: &ServeView<'_>, parts: &Parts, history: &mut History, tally: &mut Tally) {
    match (parts.writes, parts.is_at_a(view)) {
        (true, true) => count_write_at_a(view, parts, tally),
        (true, false) => count_write(view, parts, history, tally),
        (false, true) => count_read_at_a(view, history, tally),
        (false, false) => {
            let word = Word::of(view, parts);
            let class = Met::COUNT * usize::from(parts.trusted) + Met::Shown as usize;
            tally.add_if(word.mark & word.old != 0, Group::Marked, class);
        }
    }
}

/// Counts a write that may clear something. Where the model clears other marked bits, or sets one, the run stops.
fn count_write(view: &ServeView<'_>, parts: &Parts, history: &mut History, tally: &mut Tally) {
    let word = Word::of(view, parts);
    let space = usize::from(parts.trusted);
    let sorts = word.sorts();
    for (sort, bits) in sorts.into_iter().enumerate().filter(|(_, bits)| *bits != 0) {
        let first = 4 * space + sort;
        tally.add(Group::MarkedEnables, 15 * first + enables_place(sort, parts));
        for bit in (0..32).filter(|bit| bits >> bit & 1 == 1) {
            tally.add(Group::MarkedBits, 32 * first + bit);
        }
    }
    let [cleared, ..] = sorts;
    assert_eq!(
        (word.old ^ word.new) & word.mark,
        cleared,
        "the model and the classes disagree on the marked bits that a write clears"
    );
    if cleared != 0 {
        tally.add(Group::ClearedWords, 1024 * space + parts.offset / 4);
        count_cleared(&word, cleared, space, tally);
    }
    count_not_cleared(&word, space, tally);
    if parts.trusted && parts.offset == view.case.description.b as usize {
        history.b_cleared |= cleared;
        tally.add_if(cleared != 0, Group::Marked, at(MetAt::ClearedAtB));
    }
}

/// The place of a write's enables among the fifteen with which a sort of bits can be: some byte is enabled, or for bits
/// of a byte that is not, some byte is not.
fn enables_place(sort: usize, parts: &Parts) -> usize {
    let enables = usize::from(parts.enables);
    if sort == 2 { enables } else { enables - 1 }
}

/// Counts a write that clears something by what else became of the same bytes and of the word.
fn count_cleared(word: &Word, cleared: u32, space: usize, tally: &mut Tally) {
    let bytes_with = |bits: u32| bits.to_le_bytes().map(|byte| byte != 0);
    let beside = |bits: u32| {
        bytes_with(cleared)
            .into_iter()
            .zip(bytes_with(bits))
            .any(|(one, other)| one && other)
    };
    let neither = !word.rule & !word.mark;
    let mut add_if = |condition, met: Met| tally.add_if(condition, Group::Marked, Met::COUNT * space + met as usize);
    add_if(beside(word.rule & !word.old & word.new), Met::ClearedBesideSet);
    add_if(beside(word.rule & word.old & !word.new), Met::ClearedBesideCleared);
    add_if(beside(neither & word.data & word.old), Met::ClearedBesideKept);
    add_if(word.old ^ word.new == cleared, Met::OnlyCleared);
    add_if(word.mark == u32::MAX && word.data == u32::MAX, Met::AllMarked);
}

/// Counts a write whose ones meet no mark of the own space, or no enabled byte.
fn count_not_cleared(word: &Word, space: usize, tally: &mut Tally) {
    let ones = word.data & word.mask;
    let only_other = word.other_mark & !word.mark;
    let mut add_if = |condition, met: Met| tally.add_if(condition, Group::Marked, Met::COUNT * space + met as usize);
    add_if(
        word.mask == 0 && word.data == u32::MAX && word.mark & word.old != 0,
        Met::NothingEnabled,
    );
    add_if(only_other & !word.rule & ones & word.old != 0, Met::OtherSpacesMark);
    add_if(only_other & word.rule & ones != 0, Met::OtherSpacesMarkWritable);
}

/// The class of what is met at A or at B.
const fn at(met: MetAt) -> usize {
    2 * Met::COUNT + met as usize
}

fn count_write_at_a(view: &ServeView<'_>, parts: &Parts, tally: &mut Tally) {
    let b = view.case.description.b as usize;
    let ones = parts.data & enabled(parts.enables);
    let own = word(view.ordinary_marks, parts.offset) & word(view.ordinary_before, parts.offset);
    let those_at_b = word(view.trusted_marks, b) & word(view.trusted_before, b);
    tally.add_if(own & ones != 0, Group::Marked, at(MetAt::WriteAtAOverItsOwn));
    tally.add_if(those_at_b & ones != 0, Group::Marked, at(MetAt::WriteAtAOverThoseAtB));
}

fn count_read_at_a(view: &ServeView<'_>, history: &mut History, tally: &mut Tally) {
    let b = view.case.description.b as usize;
    let (mark, shown) = (word(view.trusted_marks, b), word(view.trusted_before, b));
    tally.add_if(mark & shown != 0, Group::Marked, at(MetAt::ShownAtA));
    let still_cleared = history.b_cleared & !shown;
    tally.add_if(still_cleared != 0, Group::Marked, at(MetAt::ClearedAtBThenShown));
    history.b_cleared = 0;
}

/// Counts a write that has just one cause of Unsupported Request, at a place among seven, and that would have cleared a
/// bit. A write at A would not have.
pub fn count_marked_unsupported(view: &ServeView<'_>, parts: &Parts, cause: usize, tally: &mut Tally) {
    if !parts.writes || parts.is_at_a(view) {
        return;
    }
    let [cleared, ..] = Word::of(view, parts).sorts();
    let poisoned_and_trusted = cause == 6 && parts.trusted;
    let class = cause + usize::from(poisoned_and_trusted);
    tally.add_if(cleared != 0, Group::MarkedUnsupported, class);
}
