//! A packet routed on each side: functions of one shape, which are not inlined and make one call to the side. What it
//! answers goes through black_box in each of them, so that none of them is a mere jump to its side.

use crate::raw;
use second::model;
use std::hint::black_box;

/// Routes a packet by a list of ports, with a buffer for what leaves.
pub type Route<Port, Answer> = fn(&[Port], &[u8], &mut [u8]) -> Answer;

#[inline(never)]
pub fn library(ports: &[raw::Port], packet: &[u8], leaving: &mut [u8]) -> raw::Routed {
    black_box(raw::route(ports, packet, leaving))
}

#[inline(never)]
pub fn safe_rust(ports: &[model::Port], packet: &[u8], leaving: &mut [u8]) -> model::Routed {
    black_box(model::route(ports, packet, leaving))
}

/// Safe Rust's answer in the form that the library gives it.
pub fn in_library_form(routed: model::Routed) -> raw::Routed {
    let model::Routed { number, port, length } = routed;
    raw::Routed {
        length,
        number,
        leaves: port.is_some().into(),
        port: port.unwrap_or(0),
    }
}
