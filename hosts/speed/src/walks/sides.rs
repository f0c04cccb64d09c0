//! A walk on each side: functions of one shape, which are not inlined and make one call to the side. One number of what it
//! answers goes through black_box in each of them, so that none of them is a mere jump to its side, and a struct in two
//! registers is not sent through memory.

use super::chain::List;
use super::chase;
use crate::raw;
use second::model;
use std::hint::black_box;

/// The number, how many headers are listed (for the chase: how many are read), and where the list broke.
#[derive(Clone, Copy, Debug, PartialEq, Eq)]
pub struct Answer {
    pub number: u8,
    pub count: usize,
    pub place: u16,
}

/// Walks the list in a space, with room for its offsets.
pub type Walk = fn(&[u8], &mut [u16]) -> Answer;

pub fn library(list: List) -> Walk {
    match list {
        List::Compatible => library_compatible,
        List::Extended => library_extended,
        List::Trusted => library_trusted,
    }
}

pub fn safe_rust(list: List) -> Walk {
    match list {
        List::Compatible => safe_rust_compatible,
        List::Extended => safe_rust_extended,
        List::Trusted => safe_rust_trusted,
    }
}

/// The chase takes spaces of 4,096 bytes only, and answers number 0 also where it stops at the maximum.
pub fn chase(list: List) -> Walk {
    match list {
        List::Compatible => chase_compatible,
        List::Extended => chase_extended,
        List::Trusted => chase_trusted,
    }
}

#[inline(never)]
fn library_compatible(space: &[u8], room: &mut [u16]) -> Answer {
    let raw::Walked { number, count, place } = raw::walk_compatible(space, room);
    answer(number, count, place)
}

#[inline(never)]
fn library_extended(space: &[u8], room: &mut [u16]) -> Answer {
    let raw::Walked { number, count, place } = raw::walk_extended(space, room);
    answer(number, count, place)
}

#[inline(never)]
fn library_trusted(space: &[u8], room: &mut [u16]) -> Answer {
    let raw::Walked { number, count, place } = raw::walk_trusted(space, room);
    answer(number, count, place)
}

#[inline(never)]
fn safe_rust_compatible(space: &[u8], room: &mut [u16]) -> Answer {
    let model::Walked { number, count, place } = model::walk(model::List::Compatible, space, room);
    answer(number, count, place)
}

#[inline(never)]
fn safe_rust_extended(space: &[u8], room: &mut [u16]) -> Answer {
    let model::Walked { number, count, place } = model::walk(model::List::Extended, space, room);
    answer(number, count, place)
}

#[inline(never)]
fn safe_rust_trusted(space: &[u8], room: &mut [u16]) -> Answer {
    let model::Walked { number, count, place } = model::walk(model::List::Trusted, space, room);
    answer(number, count, place)
}

#[inline(never)]
fn chase_compatible(space: &[u8], _: &mut [u16]) -> Answer {
    let space = whole(space);
    let count = black_box(chase::bytes(space, space[0x34].into(), 48));
    read(count)
}

#[inline(never)]
fn chase_extended(space: &[u8], _: &mut [u16]) -> Answer {
    let count = black_box(chase::words(whole(space), 0x100, 960));
    read(count)
}

#[inline(never)]
fn chase_trusted(space: &[u8], _: &mut [u16]) -> Answer {
    let space = whole(space);
    let start = u16::from_le_bytes([space[4], space[5]]);
    let count = black_box(chase::words(space, start.into(), 1022));
    read(count)
}

#[inline(always)]
fn answer(number: u8, count: usize, place: u16) -> Answer {
    Answer {
        number: black_box(number),
        count,
        place,
    }
}

/// The chase's answer: how many headers it read.
const fn read(count: usize) -> Answer {
    Answer {
        number: 0,
        count,
        place: 0,
    }
}

fn whole(space: &[u8]) -> &[u8; 4096] {
    space.try_into().expect("the chase is given spaces of 4,096 bytes")
}
