//! The rows of the Dual-BDF record: found, refused with 8, and refused with 10.

use super::{places, row};
use crate::random::Random;
use crate::raw;
use crate::row::Row;
use second::model;
use std::hint::black_box;

/// Where records are put, and their bytes.
const BOUNDS: (usize, usize) = (0x040, 0x100);
const BYTES: usize = 12;

pub fn rows() -> Result<Vec<Row>, String> {
    let found = places(3000, BOUNDS, BYTES, draw);
    let other = places(3001, BOUNDS, BYTES, draw_another_vendor);
    let vector = places(3002, BOUNDS, BYTES, draw_another_vector);
    let other_name = "Dual-BDF, refused 8, another vendor or ID";
    let vector_name = "Dual-BDF, refused 10, not one bit";
    Ok(vec![
        row("Dual-BDF, found", &found, library, safe_rust, record, |found| {
            found.number == 0
        })?,
        row(other_name, &other, library, safe_rust, record, |found| {
            found.number == 8
        })?,
        row(vector_name, &vector, library, safe_rust, record, |found| {
            found.number == 10
        })?,
    ])
}

fn record(found: model::Alternate, _: &[u8]) -> raw::Alternate {
    let model::Alternate {
        number,
        function,
        device,
    } = found;
    raw::Alternate {
        number,
        function,
        device,
    }
}

/// Writes a legal record of one of the two vendors.
fn draw(random: &mut Random, left: &mut [u8]) {
    let (vendor, id) = random.pick(&[(0x8086_u16, 0x0009_u16), (0x1EC0, 0x0002)]);
    left[0] = 0x09;
    left[2] = 0x0C;
    left[4..6].copy_from_slice(&vendor.to_le_bytes());
    left[6..8].copy_from_slice(&[0xC0, 0x00]);
    left[8..10].copy_from_slice(&id.to_le_bytes());
    left[10] = 1 << random.below(8);
}

fn draw_another_vendor(random: &mut Random, left: &mut [u8]) {
    draw(random, left);
    let byte = random.pick(&[4, 5, 8, 9]);
    left[byte] ^= 1 << random.below(7);
}

fn draw_another_vector(random: &mut Random, left: &mut [u8]) {
    draw(random, left);
    while left[10].count_ones() == 1 {
        left[10] = random.byte();
    }
}

#[inline(never)]
fn library(space: &[u8], at: usize) -> raw::Alternate {
    black_box(raw::dual_bdf(space, at))
}

#[inline(never)]
fn safe_rust(space: &[u8], at: usize) -> model::Alternate {
    black_box(model::dual_bdf(space, at))
}
