//! What the wrong ways to plan, to check and to write a layout are made of: all three without a look at whether the
//! structures are good, which comes before them.

use thawribbon::raw::Structure;

use crate::harness::{Wrong, expect_caught};

/// Whether structures are bad.
pub fn are_bad(structures: &[Structure]) -> bool {
    !(1..=960).contains(&structures.len()) || structures.iter().any(is_bad)
}

pub fn is_bad(structure: &Structure) -> bool {
    let Structure { id, version, length } = *structure;
    id == 0 || version > 15 || !(4..=3840).contains(&length)
}

/// What the structures take, the last one as it stands.
pub fn needed(structures: &[Structure]) -> usize {
    let whole: usize = structures.iter().map(|one| up(one.length.into())).sum();
    let last = structures.last().map_or(0, |one| usize::from(one.length));
    whole + last - up(last)
}

/// A length rounded up to 4.
pub const fn up(length: usize) -> usize {
    (length + 3) & !3
}

/// Offsets from 100h on, each as far from the one before as a length makes it.
pub fn offsets_by(structures: &[Structure], step: impl Fn(usize) -> usize) -> Vec<u16> {
    let mut next = 0x100;
    let offsets = structures.iter().map(|structure| {
        let offset = next as u16;
        next += step(structure.length.into());
        offset
    });
    offsets.collect()
}

/// Plans good structures or bad ones.
pub fn plan(structures: &[Structure], room: &mut [u16]) -> u8 {
    if room.len() < structures.len() {
        return 2;
    }
    if needed(structures) > 3840 {
        return 14;
    }
    room[..structures.len()].copy_from_slice(&offsets_by(structures, up));
    0
}

/// A test of a structure's start and end, and those of the next one.
pub type Apart = fn([usize; 2], [usize; 2]) -> bool;
/// A test of a structure's start and end, its place, and how many there are.
pub type Ends = fn([usize; 2], usize, usize) -> bool;

/// A checker by its clauses, one of which may be wrong. Each is given what it looks at, for each structure that has an
/// offset.
#[derive(Clone, Copy)]
pub struct Clauses {
    pub is_count: fn(structures: usize, offsets: usize) -> bool,
    pub is_first: fn(u16) -> bool,
    /// An offset, its place, and how many there are.
    pub is_multiple: fn(u16, usize, usize) -> bool,
    /// An offset and the next one.
    pub rises: fn(u16, u16) -> bool,
    pub are_apart: Apart,
    pub ends: Ends,
}

pub const RIGHT: Clauses = Clauses {
    is_count: |structures, offsets| structures == offsets,
    is_first: |first| first == 0x100,
    is_multiple: |offset, _, _| offset % 4 == 0,
    rises: |offset, next| offset < next,
    are_apart: |[_, end], [next, _]| end <= next,
    ends: |[_, end], _, _| end <= 0x1000,
};

impl Clauses {
    /// Whether a proposal is accepted, for good structures or bad ones.
    pub fn accept(&self, structures: &[Structure], offsets: &[u16]) -> bool {
        let pairs = structures.iter().zip(offsets);
        let spans = pairs.map(|(one, &at)| [usize::from(at), usize::from(at) + usize::from(one.length)]);
        let spans: Vec<[usize; 2]> = spans.collect();
        let count = spans.len();
        let offsets_with_places = offsets.iter().take(count).enumerate();
        (self.is_count)(structures.len(), offsets.len())
            && offsets.first().is_none_or(|&first| (self.is_first)(first))
            && offsets_with_places
                .into_iter()
                .all(|(place, &at)| (self.is_multiple)(at, place, count))
            && offsets[..count].windows(2).all(|pair| (self.rises)(pair[0], pair[1]))
            && spans.windows(2).all(|pair| (self.are_apart)(pair[0], pair[1]))
            && spans
                .iter()
                .enumerate()
                .all(|(place, &span)| (self.ends)(span, place, count))
    }
}

/// Writes the headers of good structures or bad ones, where the space has their words.
pub fn write_headers(structures: &[Structure], offsets: &[u16], space: &mut [u8]) {
    for (place, (structure, &offset)) in structures.iter().zip(offsets).enumerate() {
        let next = offsets.get(place + 1).copied().unwrap_or(0);
        put(space, offset.into(), header(structure, next));
    }
}

/// The header of a structure.
pub fn header(structure: &Structure, next: u16) -> u32 {
    u32::from(structure.id) | u32::from(structure.version) << 16 | u32::from(next) << 20
}

/// Stores a word where the space has it.
pub fn put(space: &mut [u8], offset: usize, word: u32) {
    if let Some(bytes) = space.get_mut(offset..offset + 4) {
        bytes.copy_from_slice(&word.to_le_bytes());
    }
}

/// A checker, and a writer with the same check, that accept by another test.
pub fn accepting(accept: impl Fn(&[Structure], &[u16]) -> bool + Clone + 'static) -> [Wrong; 2] {
    let also = accept.clone();
    let check = Wrong::check(move |structures, offsets| match are_bad(structures) {
        true => 1,
        false if accept(structures, offsets) => 0,
        false => 18,
    });
    let write = Wrong::lay(move |structures, offsets, space| {
        if are_bad(structures) || space.len() != 4096 {
            return 1;
        }
        if !also(structures, offsets) {
            return 18;
        }
        write_headers(structures, offsets, space);
        0
    });
    [check, write]
}

/// Fails unless a checker and a writer are caught that accept by another test.
pub fn expect_accepting_caught(accept: impl Fn(&[Structure], &[u16]) -> bool + Clone + 'static) {
    let [check, write] = accepting(accept);
    expect_caught(check, "check_layout");
    expect_caught(write, "write_layout");
}

/// Fails unless a checker and a writer by other clauses are caught.
pub fn expect_clauses_caught(clauses: Clauses) {
    expect_accepting_caught(move |structures, offsets| clauses.accept(structures, offsets));
}

/// A planner, a checker and a writer that hold structures to be bad by another test.
pub fn vetting(are_bad: impl Fn(&[Structure]) -> bool + Clone + 'static) -> [(Wrong, &'static str); 3] {
    let [of_plan, of_check, of_write] = [are_bad.clone(), are_bad.clone(), are_bad];
    let plan = Wrong::plan(move |structures, room| if of_plan(structures) { 1 } else { plan(structures, room) });
    let check = Wrong::check(move |structures, offsets| match of_check(structures) {
        true => 1,
        false if RIGHT.accept(structures, offsets) => 0,
        false => 18,
    });
    let write = Wrong::lay(move |structures, offsets, space| {
        if of_write(structures) || space.len() != 4096 {
            return 1;
        }
        if !RIGHT.accept(structures, offsets) {
            return 18;
        }
        write_headers(structures, offsets, space);
        0
    });
    [(plan, "plan_layout"), (check, "check_layout"), (write, "write_layout")]
}

/// Fails unless all three are caught.
pub fn expect_vetting_caught(are_bad: impl Fn(&[Structure]) -> bool + Clone + 'static) {
    for (subject, entry) in vetting(are_bad) {
        expect_caught(subject, entry);
    }
}
