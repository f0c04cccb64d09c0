//! Tests: safe Rust answers as the library does, and leaves the same, at every edge and not only where a row is.

use super::draft::Draft;
use super::sides::number;
use super::{for_safe_rust, safe_rust};
use crate::random::Random;
use crate::raw;
use std::collections::BTreeSet;

const TRIES: usize = 20_000;
/// Every count that a bound is at, and some between.
const COUNTS: [usize; 10] = [0, 1, 2, 3, 12, 12, 96, 959, 960, 961];

#[test]
fn sides_agree() {
    let mut random = Random::seeded(7900);
    let mut numbers = BTreeSet::new();
    for _ in 0..TRIES {
        let mut draft = draw(&mut random);
        for _ in 0..random.below(3) {
            spoil(&mut random, &mut draft);
        }
        numbers.extend(both(&mut random, &draft));
    }
    let all = [
        "check 0", "check 1", "check 18", "plan 0", "plan 1", "plan 14", "plan 2", "write 0", "write 1", "write 18",
    ];
    assert_eq!(numbers, all.map(String::from).into());
}

/// Structures with offsets that are accepted, where there are 1 to 960.
fn draw(random: &mut Random) -> Draft {
    let count = random.pick(&COUNTS);
    let mut draft = Draft::draw(random, count.clamp(1, 960));
    draft.structures.resize(count, draft.structures[0]);
    draft.offsets.resize(count, 0x1000);
    draft
}

/// Changes one number to one that is near a bound, or how many offsets there are.
fn spoil(random: &mut Random, draft: &mut Draft) {
    let what = random.below(7);
    let last = draft.structures.len().saturating_sub(1);
    let any = random.below(last + 1);
    let place = random.pick(&[0, last, any]);
    let (structure, offset) = (draft.structures.get_mut(place), draft.offsets.get_mut(place));
    match (what, structure, offset) {
        (0, Some(structure), _) => structure.id = random.pick(&[0, 1, 0xFFFF]),
        (1, Some(structure), _) => structure.version = random.pick(&[0, 15, 16, 0xFFFF]),
        (2, Some(structure), _) => structure.length = random.pick(&[0, 3, 4, 5, 8, 3840, 3841, 0xFFFF]),
        (3, Some(structure), _) => structure.length = structure.length.wrapping_add(random.below(9) as u16),
        (4, _, Some(offset)) => *offset = random.pick(&[0, 0xFC, 0x100, 0x104, 0xFFC, 0x1000, 0xFFFC, 0xFFFF]),
        (5, _, Some(offset)) => *offset = offset.wrapping_add(random.below(17) as u16).wrapping_sub(8),
        _ => draft.offsets.resize(random.pick(&[0, last, last + 2]), 0xFFC),
    }
}

/// Gives an input to both sides, and what each function answered.
fn both(random: &mut Random, Draft { structures, offsets }: &Draft) -> [String; 3] {
    let others: Vec<_> = structures.iter().map(for_safe_rust).collect();
    let room = vec![0xAAAA; random.pick(&[0, structures.len().saturating_sub(1), structures.len(), 960])];
    let mut rooms = [room.clone(), room];
    let planned = raw::plan_layout(structures, &mut rooms[0]);
    assert_eq!(planned, number(safe_rust::plan(&others, &mut rooms[1])));
    assert_eq!(rooms[0], rooms[1]);

    let checked = raw::check_layout(structures, offsets);
    assert_eq!(checked, number(safe_rust::check(&others, offsets)));

    // Mostly as long as a space is.
    let length = random.pick(&[4096, 4096, 4096, 4096, 4096, 4096, 0, 4095, 4097]);
    let space = random.bytes(length);
    let mut spaces = [space.clone(), space];
    let written = raw::write_layout(structures, offsets, &mut spaces[0]);
    assert_eq!(written, number(safe_rust::write(&others, offsets, &mut spaces[1])));
    assert!(spaces[0] == spaces[1]);
    [
        format!("plan {planned}"),
        format!("check {checked}"),
        format!("write {written}"),
    ]
}
