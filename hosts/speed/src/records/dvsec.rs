//! The rows of the DVSEC record: found, refused with 8, and its register body.

use super::{places, row};
use crate::random::Random;
use crate::raw;
use crate::row::Row;
use second::model;
use std::hint::black_box;

/// Where records are put, and the bytes of their headers.
const BOUNDS: (usize, usize) = (0x100, 0x1000);
const BYTES: usize = 12;

pub fn rows() -> Result<Vec<Row>, String> {
    let found = places(2000, BOUNDS, BYTES, draw);
    let other = places(2001, BOUNDS, BYTES, draw_another_structure);
    let other_name = "DVSEC, refused 8, another ID or version";
    Ok(vec![
        row("DVSEC, found", &found, library, safe_rust, record, |found| {
            found.number == 0
        })?,
        row(other_name, &other, library, safe_rust, record, |found| {
            found.number == 8
        })?,
        row(
            "DVSEC body, found",
            &found,
            library_body,
            safe_rust_body,
            part,
            |found| found.length != 0,
        )?,
    ])
}

fn record(found: model::Dvsec, _: &[u8]) -> raw::Dvsec {
    let model::Dvsec {
        number,
        vendor,
        revision,
        id,
        length,
    } = found;
    raw::Dvsec {
        number,
        revision,
        vendor,
        id,
        length,
    }
}

fn part(body: *const [u8], space: &[u8]) -> raw::Part {
    raw::Part {
        start: body.addr() - space.as_ptr().addr(),
        length: body.len(),
    }
}

/// Writes a legal record with a body at the start of the bytes that are left of a space.
fn draw(random: &mut Random, left: &mut [u8]) {
    let length = (0x0B + random.below(left.len().min(0xFFF) - 0x0A)) as u16;
    left[0..2].copy_from_slice(&[0x23, 0x00]);
    left[2] = left[2] & 0xF0 | 1;
    left[6..8].copy_from_slice(&(length << 4 | random.below(16) as u16).to_le_bytes());
}

/// Writes a record whose ID or version is another.
fn draw_another_structure(random: &mut Random, left: &mut [u8]) {
    draw(random, left);
    let (byte, bits) = random.pick(&[(0, 0xFF), (1, 0xFF), (2, 0x0F)]);
    left[byte] ^= 1 + random.below(bits) as u8;
}

#[inline(never)]
fn library(space: &[u8], at: usize) -> raw::Dvsec {
    black_box(raw::dvsec(space, at))
}

#[inline(never)]
fn safe_rust(space: &[u8], at: usize) -> model::Dvsec {
    black_box(model::dvsec(space, at))
}

#[inline(never)]
fn library_body(space: &[u8], at: usize) -> raw::Part {
    black_box(raw::dvsec_body(space, at))
}

/// A pointer and a length, so that the answer does not name the lifetime of the space.
#[inline(never)]
fn safe_rust_body(space: &[u8], at: usize) -> *const [u8] {
    black_box(model::dvsec_body(space, at))
}
