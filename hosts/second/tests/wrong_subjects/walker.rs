//! A walk that may be wrong in some particulars: what the wrong ways to walk are made of.

use std::collections::HashSet;

use second::model::List;
use thawribbon::raw::Walked;

use crate::harness::{Wrong, expect_caught, expect_not_caught, right_walk, word};

/// The lists, each with the entry that walks it, its floor and its maximum.
pub const LISTS: [(List, &str, usize, usize); 3] = [
    (List::Compatible, "walk_compatible", 0x040, 48),
    (List::Extended, "walk_extended", 0x100, 960),
    (List::Trusted, "walk_trusted", 0x008, 1022),
];

/// The extended list's place among them.
pub const EXTENDED: usize = 1;

/// All of them, and those that have a pointer to their start.
pub const ALL: &[usize] = &[0, 1, 2];
pub const STARTED: &[usize] = &[0, 2];

/// A broken list's answer: 11 or 12, and the place.
pub const fn refused(number: u8, place: u16) -> Walked {
    Walked {
        count: 0,
        number,
        place,
    }
}

/// The structure that holds the pointer after these offsets; 0 stands for the start, which none holds.
pub fn holder(chain: &[u16]) -> u16 {
    chain.last().copied().unwrap_or(0)
}

/// The structure that holds the first pointer back, of offsets that were met; none where none comes again.
pub fn first_back(offsets: &[u16]) -> Option<u16> {
    let mut met = HashSet::new();
    let again = offsets.iter().position(|at| !met.insert(at))?;
    Some(offsets[again - 1])
}

/// Which of the offsets met are remembered, to notice one that comes again.
#[derive(Clone, Copy)]
pub enum Memory {
    /// So many of the first.
    First(usize),
    /// So many of the last.
    Last(usize),
}

/// What a walk makes of something.
#[derive(Clone, Copy)]
pub enum Verdict {
    /// It is refused, and told as what it is.
    Broken,
    /// It is taken for an end: what was met is listed.
    End,
}

/// A way to walk that may be wrong in some particulars.
#[derive(Clone, Copy)]
pub struct Habits {
    /// The lowest offset that is taken.
    pub floor: usize,
    /// What an offset below it is taken for.
    pub below: Verdict,
    /// Whether the first offset is tested against the floor too.
    pub tests_start: bool,
    /// The longest chain that is followed, and what a longer one is taken for.
    pub most: usize,
    pub longer: Verdict,
    /// Whether the first pointer back is looked for where a chain is longer; else the last one followed is told.
    pub looks_back: bool,
    /// Which offsets are remembered, and what one of them that comes again is taken for.
    pub memory: Memory,
    pub again: Verdict,
    /// Whether the bottom bits of a pointer are dropped.
    pub drops_bits: bool,
    /// Whether the mark of an empty list is looked at.
    pub looks_for_empty: bool,
    /// Whether offsets are written before the end is known.
    pub writes_at_once: bool,
}

/// The right habits of a list: nothing is remembered, and the count tells a loop, in which the first pointer back is
/// looked for.
pub fn right(place: usize) -> Habits {
    let (_, _, floor, most) = LISTS[place];
    Habits {
        floor,
        below: Verdict::Broken,
        tests_start: true,
        most,
        longer: Verdict::Broken,
        looks_back: true,
        memory: Memory::First(0),
        again: Verdict::Broken,
        drops_bits: true,
        looks_for_empty: true,
        writes_at_once: false,
    }
}

/// Where a list starts, as it stands in the space, and whether it is called empty.
pub fn start(list: List, space: &[u8]) -> (usize, bool) {
    match list {
        List::Compatible => (space[0x34].into(), space[6] & 0x10 == 0),
        List::Extended => (0x100, word(space, 0x100) == 0),
        List::Trusted => (word(space, 4) as usize & 0xFFF, false),
    }
}

/// The pointer of a header, as it stands in the space.
pub fn next(list: List, space: &[u8], at: usize) -> usize {
    match list {
        List::Compatible => space[at + 1].into(),
        _ => (word(space, at) >> 20) as usize,
    }
}

/// Whether the ID of a header is 0.
pub fn is_null(place: usize, space: &[u8], at: u16) -> bool {
    let id = if place == 0 { 0xFF } else { 0xFFFF };
    word(space, at.into()) & id == 0
}

/// Whether all of a header is 0: the two bytes of the compatible list's, and the word of another list's.
pub fn is_zero(place: usize, space: &[u8], at: u16) -> bool {
    let header = if place == 0 { 0xFFFF } else { u32::MAX };
    word(space, at.into()) & header == 0
}

/// Writes offsets to the start of the room.
pub fn listed(chain: &[u16], room: &mut [u16]) -> Walked {
    room[..chain.len()].copy_from_slice(chain);
    Walked {
        count: chain.len(),
        number: 0,
        place: 0,
    }
}

impl Habits {
    /// What the walk makes of the next offset, if it does not go on with it, and its answer where that is broken.
    fn verdict(&self, at: usize, chain: &[u16]) -> Option<(Verdict, Walked)> {
        let remembered = match self.memory {
            Memory::First(most) => &chain[..most.min(chain.len())],
            Memory::Last(most) => &chain[chain.len().saturating_sub(most)..],
        };
        let tested = self.tests_start || !chain.is_empty();
        if at == 0 {
            Some((Verdict::End, refused(0, 0)))
        } else if tested && at < self.floor {
            Some((self.below, refused(11, holder(chain))))
        } else if remembered.contains(&(at as u16)) {
            Some((self.again, refused(12, holder(chain))))
        } else {
            (chain.len() == self.most).then(|| (self.longer, self.too_long(at, chain)))
        }
    }

    /// The answer to a chain that goes on with an offset where it should have ended.
    fn too_long(&self, at: usize, chain: &[u16]) -> Walked {
        let looked_for = first_back(&[chain, &[at as u16]].concat()).filter(|_| self.looks_back);
        refused(12, looked_for.unwrap_or(holder(chain)))
    }

    /// Walks a list of a whole space with room enough.
    pub fn walk(&self, list: List, space: &[u8], room: &mut [u16]) -> Walked {
        let mask = if self.drops_bits { 0xFFC } else { 0xFFF };
        let (start, empty) = start(list, space);
        let mut at = if empty && self.looks_for_empty { 0 } else { start & mask };
        let mut chain = Vec::new();
        loop {
            match self.verdict(at, &chain) {
                Some((Verdict::Broken, answer)) => return answer,
                Some((Verdict::End, _)) => return listed(&chain, room),
                None => chain.push(at as u16),
            }
            if self.writes_at_once {
                room[chain.len() - 1] = at as u16;
            }
            at = next(list, space, at & 0xFFC) & mask;
        }
    }
}

/// Every list walked in another way where its sizes are right, and all else as by the model.
pub fn all_walked_by(way: impl Fn(usize, &[u8], &mut [u16]) -> Walked + 'static) -> Wrong {
    Wrong::walk(move |list, space, room| {
        let place = list as usize;
        if space.len() == 4096 && room.len() >= LISTS[place].3 {
            way(place, space, room)
        } else {
            right_walk(list, space, room)
        }
    })
}

/// One list walked in another way, and the other two as by the model.
pub fn one_walked_by(one: usize, way: impl Fn(List, &[u8], &mut [u16]) -> Walked + 'static) -> Wrong {
    all_walked_by(move |place, space, room| {
        let list = LISTS[place].0;
        if place == one {
            way(list, space, room)
        } else {
            right_walk(list, space, room)
        }
    })
}

/// Each of the lists is caught where it is walked by changed habits.
pub fn expect_each_caught(places: &[usize], change: impl Fn(Habits) -> Habits) {
    for &place in places {
        let habits = change(right(place));
        let subject = one_walked_by(place, move |list, space, room| habits.walk(list, space, room));
        expect_caught(subject, LISTS[place].1);
    }
}

/// None of the lists is caught where it is walked by changed habits.
pub fn expect_none_caught(change: impl Fn(Habits) -> Habits + 'static) {
    expect_not_caught(all_walked_by(move |place, space, room| {
        change(right(place)).walk(LISTS[place].0, space, room)
    }));
}
