//! Every answer that may not be dropped, dropped: rustc has to warn of each line that says so.
//!
//! tests/rust.sh compiles this; it is no test of the package, and is never run. It counts the crate's functions too: each
//! that gives something stands here. What leaves a switch, is judged, is to be sent, or is to be written may not be dropped
//! behind a `?` either.
use thawribbon::raw::{self, Capture, Captures, Description, Parts};
use thawribbon::{Board, Completion, Edition, Groups, Id, Kind, Layout, Leaving, List, NotAnswered, NotDone, NotNamed, NotRouted};
use thawribbon::{Function, Packet, Pair, Port, PortSet, Refusal, Request, Side, Space, Structure, UnknownEdition};
use thawribbon::{chain, dual_bdf, dvsec, dvsec_body, headers, judge, route, walk};

fn main() {}

pub fn drop_answers(board: &mut Board, space: &[u8], room: &mut [u16]) {
    board.serve(space); // dropped
    walk(List::Extended, space, room); // dropped
    chain(List::Extended, space); // dropped
    headers(List::Extended, space); // dropped
    dvsec(space, 0x100); // dropped
    dvsec_body(space, 0x100); // dropped
    dual_bdf(space, 0x040); // dropped
    board.reset();
}

pub fn drop_parts(completion: &Completion, not_done: &NotDone, refusal: Refusal) {
    completion.status(); // dropped
    completion.data(); // dropped
    completion.completer(); // dropped
    completion.requester(); // dropped
    completion.tag(); // dropped
    completion.bytes(); // dropped
    completion.said(); // dropped
    not_done.completion(); // dropped
    refusal.number(); // dropped
    refusal.text(); // dropped
    refusal.place(); // dropped
    List::Extended.maximum(); // dropped
}

pub fn drop_routed(ports: &[Port], packet: &[u8], leaving: &Leaving) -> Result<(), NotRouted> {
    route(ports, packet); // dropped
    route(ports, packet)?; // dropped
    leaving.port(); // dropped
    leaving.bytes(); // dropped
    Ok(())
}

pub fn drop_judged(ports: &[Groups], space: &[u8], set: PortSet) -> Result<(), Refusal> {
    Groups::read(space, 0x100); // dropped
    judge(ports, 0, 0); // dropped
    judge(ports, 0, 0)?; // dropped
    set.contains(0); // dropped
    set.is_empty(); // dropped
    set.len(); // dropped
    set.bits(); // dropped
    set.iter(); // dropped
    Ok(())
}

pub fn drop_raw_judged(ports: &[Groups], space: &[u8], groups: &mut Groups) {
    raw::multicast(space, 0x100, groups); // dropped
    raw::judge(ports, 0, 0); // dropped
}

pub fn drop_laid(structures: &[Structure], room: &mut [u16], space: &mut [u8]) -> Result<(), Refusal> {
    Layout::plan(structures, room); // dropped
    Layout::plan(structures, room)?; // dropped
    Layout::check(structures, room); // dropped
    let layout = Layout::check(structures, room)?;
    layout.write(space); // dropped
    layout.structures(); // dropped
    layout.offsets(); // dropped
    Ok(())
}

pub fn drop_raw_laid(structures: &[Structure], room: &mut [u16], space: &mut [u8]) {
    raw::plan_layout(structures, room); // dropped
    raw::check_layout(structures, room); // dropped
    raw::write_layout(structures, room, space); // dropped
}

pub fn drop_requests(target: Id, data: [u8; 4]) {
    Request::type0_read(target, 0x004); // dropped
    Request::type0_write(target, 0x004, data); // dropped
    Request::type1_read(target, 0x004); // dropped
    Request::type1_write(target, 0x004, data); // dropped
    Request::trusted_read(target, 0x004); // dropped
    Request::trusted_write(target, 0x004, data); // dropped
    Kind::Type0Read.code(); // dropped
    Kind::Type0Read.writes(); // dropped
}

pub fn drop_asked(request: fn() -> Request, packet: Packet, not_answered: NotAnswered) -> Result<(), Refusal> {
    request(); // dropped
    request().by([0x01, 0x00], 7); // dropped
    request().enabling(0x0F); // dropped
    request().packet(); // dropped
    request().packet()?; // dropped
    request().answered_by(&packet); // dropped
    Completion::read(&packet); // dropped
    packet.bytes(); // dropped
    not_answered.completion(); // dropped
    Ok(())
}

pub fn drop_raw_asked(parts: Parts, buffer: &mut [u8]) {
    raw::write_request(parts, buffer); // dropped
    raw::read_completion(buffer); // dropped
}

pub fn drop_board(description: thawribbon::Description, ordinary: Space, trusted: Space) {
    Board::fresh(description, ordinary, trusted); // dropped
}

pub fn drop_side(function: Function, ordinary: Space, trusted: Space) {
    Side::fresh(function, ordinary, trusted); // dropped
}

pub fn drop_pair(pair: &mut Pair, packet: &[u8], not_named: NotNamed) {
    pair.serve(packet); // dropped
    pair.dual_bdf(0x040); // dropped
    not_named.record(); // dropped
    pair.reset();
}

pub fn drop_raw_pair(kept: Captures, space: &[u8], one: [&mut [u8]; 2], two: [&mut [u8]; 2], reply: &mut [u8]) {
    let (function, [a, b], [c, d], s) = (raw::Function::default(), one, two, space);
    raw::serve_pair(1, function, function, kept, a, s, s, b, s, s, c, s, s, d, s, s, s, reply); // dropped
    raw::reset_pair(kept); // dropped
}

pub fn drop_editions(edition: Edition, unknown: UnknownEdition) {
    edition.number(); // dropped
    unknown.number(); // dropped
}

pub fn drop_raw_routed(ports: &[Port], packet: &[u8], leaving: &mut [u8]) {
    raw::route(ports, packet, leaving); // dropped
}

pub fn drop_raw(space: &[u8], bytes: &mut [u8], other: &mut [u8], reply: &mut [u8], room: &mut [u16]) {
    let (description, kept) = (Description::default(), Capture::default());
    raw::serve(description, kept, bytes, space, space, other, space, space, space, reply); // dropped
    raw::reset(kept); // dropped
    raw::walk_compatible(space, room); // dropped
    raw::walk_extended(space, room); // dropped
    raw::walk_trusted(space, room); // dropped
    raw::dvsec(space, 0x100); // dropped
    raw::dvsec_body(space, 0x100); // dropped
    raw::dual_bdf(space, 0x040); // dropped
}
