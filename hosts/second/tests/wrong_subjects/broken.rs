//! A broken list, taken apart: what the wrong ways to tell of it are made of.

use std::ops::RangeInclusive;

use second::model::List;
use thawribbon::raw::Walked;

use crate::harness::{Wrong, expect_caught, right_walk};
use crate::walker::{LISTS, holder, next, one_walked_by, refused, start};

/// The offset that a list starts with; 0 where it is empty.
pub fn first(list: List, space: &[u8]) -> usize {
    let (pointer, empty) = start(list, space);
    if empty { 0 } else { pointer & 0xFFC }
}

/// The offset after one. Below the floor, and at an end, a walker stays where it is.
pub fn step(place: usize, space: &[u8], at: usize) -> usize {
    let (list, _, floor, _) = LISTS[place];
    if at < floor { at } else { next(list, space, at) & 0xFFC }
}

/// How many different headers a broken chain meets, and how far back the last of them points: 1 is to itself, and 0
/// stands for below the floor.
pub type Shape = (usize, usize);

/// A list without an end.
pub struct Broken {
    /// The list's place among the three.
    pub place: usize,
    /// Its different headers, in their order.
    pub chain: Vec<u16>,
    /// The pointer at fault, as it stands in the space: the last header's, or the start where there is no header.
    pub pointer: usize,
    /// How far back it leads, as in a [`Shape`].
    pub back: usize,
}

impl Broken {
    /// None where there is an end.
    pub fn find(place: usize, space: &[u8]) -> Option<Self> {
        let (list, _, floor, _) = LISTS[place];
        let (mut pointer, empty) = start(list, space);
        // For each word, the number of headers up to it; 0 where it was not met.
        let (mut met, mut chain) = ([0; 1024], Vec::new());
        while pointer & 0xFFC >= floor && met[pointer / 4] == 0 {
            let at = pointer & 0xFFC;
            chain.push(at as u16);
            met[at / 4] = chain.len();
            pointer = next(list, space, at);
        }
        let back = match met[pointer / 4] {
            0 => 0,
            number => chain.len() + 1 - number,
        };
        (!empty && pointer > 3).then_some(Self {
            place,
            chain,
            pointer,
            back,
        })
    }

    pub fn shape(&self) -> Shape {
        (self.chain.len(), self.back)
    }

    pub const fn is_loop(&self) -> bool {
        self.back > 0
    }

    /// Whether the start itself leads below the floor.
    pub fn is_at_the_start(&self) -> bool {
        self.chain.is_empty()
    }

    /// The offset that the pointer at fault leads to.
    pub const fn to(&self) -> u16 {
        self.pointer as u16 & 0xFFC
    }

    /// The headers of the loop, from the one that the pointer at fault leads to.
    pub fn round(&self) -> &[u16] {
        &self.chain[self.chain.len() - self.back..]
    }

    /// The header that is met after so many steps, round the loop as often as it takes.
    pub fn after(&self, steps: usize) -> u16 {
        let tail = self.chain.len() - self.back;
        if steps < tail {
            self.chain[steps]
        } else {
            self.chain[tail + (steps - tail) % self.back]
        }
    }

    /// After how many steps a tortoise meets a hare, which makes two steps where it makes one. In a loop they do.
    pub fn meeting(&self) -> usize {
        let meets = |&steps: &usize| self.after(steps) == self.after(2 * steps);
        (1..).find(meets).expect("they meet in a loop")
    }

    /// The right number.
    pub fn number(&self) -> u8 {
        if self.is_loop() { 12 } else { 11 }
    }

    /// The right answer.
    pub fn right(&self) -> Walked {
        self.told_at(holder(&self.chain))
    }

    /// The right number with a place.
    pub fn told_at(&self, place: u16) -> Walked {
        refused(self.number(), place)
    }
}

/// A list whose broken chains are told in another way, and which is right otherwise.
pub fn told_by(place: usize, tell: impl Fn(&Broken) -> Walked + 'static) -> Wrong {
    one_walked_by(place, move |list, space, room| match Broken::find(place, space) {
        Some(broken) => tell(&broken),
        None => right_walk(list, space, room),
    })
}

/// Each of the lists is caught where its broken chains are told in another way.
pub fn expect_telling_caught(places: &[usize], tell: impl Fn(&Broken) -> Walked + Copy + 'static) {
    for &place in places {
        expect_caught(told_by(place, tell), LISTS[place].1);
    }
}

/// Each of the lists is caught where its broken chains are told at another place, with the right number.
pub fn expect_place_caught(places: &[usize], place: impl Fn(&Broken) -> u16 + Copy + 'static) {
    expect_telling_caught(places, move |broken| broken.told_at(place(broken)));
}

/// The shapes of the shortest and of the longest walks: so many headers, and how far back the last of them points.
fn edge_shapes(maximum: usize) -> Vec<(usize, RangeInclusive<usize>)> {
    let short = (1..=3).flat_map(|headers| (0..=headers).map(move |back| (headers, back..=back)));
    let long = [maximum - 1, maximum].into_iter().flat_map(|headers| {
        let backs = [0..=0, 1..=1, 2..=2, 3..=headers - 1, headers..=headers];
        backs.map(|backs| (headers, backs))
    });
    short.chain(long).collect()
}

/// Each list is caught where one of the shapes is told in another way, and the others as they are.
pub fn expect_each_shape_caught(tell: impl Fn(&Broken) -> Walked + Copy + 'static) {
    for (place, (_, entry, _, maximum)) in LISTS.into_iter().enumerate() {
        for (headers, backs) in edge_shapes(maximum) {
            let subject = told_by(place, move |broken| {
                let (met, back) = broken.shape();
                if met == headers && backs.contains(&back) {
                    tell(broken)
                } else {
                    broken.right()
                }
            });
            expect_caught(subject, entry);
        }
    }
}
