//! Each job on each side: functions of one shape, which are not inlined. What is answered goes through black_box in each
//! of them, so that none of them is a mere jump to its side, and as a whole word: a byte would lie in a word of the stack
//! that is read as a whole on return, and that reading waits for the byte.

use super::kind::Job;
use super::lent::Lent;
use super::safe_rust::{self, Structure};
use crate::raw;
use second::model;
use std::hint::black_box;

/// Works on structures and their offsets, and answers the number.
pub type Work<Structure> = fn(&[Structure], &[u16], &mut Lent) -> u64;

pub fn library(job: Job) -> Work<raw::Structure> {
    match job {
        Job::Plan => library_plans,
        Job::Check => library_checks,
        Job::Write => library_writes,
        Job::PlanWriteWalk => library_plans_writes_walks,
    }
}

pub fn safe_rust(job: Job) -> Work<Structure> {
    match job {
        Job::Plan => safe_rust_plans,
        Job::Check => safe_rust_checks,
        Job::Write => safe_rust_writes,
        Job::PlanWriteWalk => safe_rust_plans_writes_walks,
    }
}

#[inline(never)]
fn library_plans(structures: &[raw::Structure], _: &[u16], lent: &mut Lent) -> u64 {
    black_box(raw::plan_layout(structures, &mut lent.planned).into())
}

#[inline(never)]
fn library_checks(structures: &[raw::Structure], offsets: &[u16], _: &mut Lent) -> u64 {
    black_box(raw::check_layout(structures, offsets).into())
}

#[inline(never)]
fn library_writes(structures: &[raw::Structure], offsets: &[u16], lent: &mut Lent) -> u64 {
    black_box(raw::write_layout(structures, offsets, &mut lent.space).into())
}

#[inline(never)]
fn library_plans_writes_walks(structures: &[raw::Structure], _: &[u16], lent: &mut Lent) -> u64 {
    let planned = raw::plan_layout(structures, &mut lent.planned);
    let offsets = &lent.planned[..structures.len()];
    let written = raw::write_layout(structures, offsets, &mut lent.space);
    let walked = raw::walk_extended(&lent.space, &mut lent.listed);
    black_box((planned | written | walked.number).into())
}

#[inline(never)]
fn safe_rust_plans(structures: &[Structure], _: &[u16], lent: &mut Lent) -> u64 {
    black_box(number(safe_rust::plan(structures, &mut lent.planned)).into())
}

#[inline(never)]
fn safe_rust_checks(structures: &[Structure], offsets: &[u16], _: &mut Lent) -> u64 {
    black_box(number(safe_rust::check(structures, offsets)).into())
}

#[inline(never)]
fn safe_rust_writes(structures: &[Structure], offsets: &[u16], lent: &mut Lent) -> u64 {
    black_box(number(safe_rust::write(structures, offsets, &mut lent.space)).into())
}

#[inline(never)]
fn safe_rust_plans_writes_walks(structures: &[Structure], _: &[u16], lent: &mut Lent) -> u64 {
    let planned = number(safe_rust::plan(structures, &mut lent.planned));
    let offsets = &lent.planned[..structures.len()];
    let written = number(safe_rust::write(structures, offsets, &mut lent.space));
    let walked = model::walk(model::List::Extended, &lent.space, &mut lent.listed);
    black_box((planned | written | walked.number).into())
}

/// Safe Rust's answer as a number.
pub fn number(answer: Result<(), u8>) -> u8 {
    answer.err().unwrap_or(0)
}
