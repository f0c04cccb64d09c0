//! The natural code notices what does not leave: `?` stops there. What leaves goes to the board behind its port.
#![forbid(unsafe_code)]

mod common;

use common::SPACE;
use common::switch::{THREE, port, request};
use std::error::Error;
use thawribbon::{Board, Capture, Description, Edition, Leaving, NO_MARKS};
use thawribbon::{NotRouted, Port, Refusal, Space, dvsec, route};

/// A host's own function, which passes a packet on.
fn pass_on(ports: &[Port], packet: &[u8]) -> Result<(usize, Vec<u8>), NotRouted> {
    let leaving = route(ports, packet)?;
    Ok((leaving.port(), leaving.bytes().to_vec()))
}

#[test]
fn a_question_mark_stops_at_what_has_no_port_and_at_what_is_refused() {
    assert_eq!(pass_on(&THREE, &request(0x45, 0x00, 0x09)), Err(NotRouted::Unsupported));
    let refused = [
        (request(0x44, 0x00, 0x05), Refusal::UnknownType),
        (request(0x5B, 0x00, 0x08), Refusal::UnknownType),
        (request(0x45, 0x00, 0x05)[..15].to_vec(), Refusal::WrongLength),
        (vec![], Refusal::ShortPacket),
    ];
    for (packet, refusal) in refused {
        assert_eq!(pass_on(&THREE, &packet), Err(NotRouted::Refused(refusal)));
    }
    let bad = Err(NotRouted::Refused(Refusal::BadDescription));
    assert_eq!(pass_on(&[THREE[0], THREE[0]], &request(0x45, 0x00, 0x05)), bad);
    assert_eq!(
        pass_on(&THREE, &request(0x45, 0x00, 0x05)),
        Ok((0, request(0x44, 0x00, 0x05)))
    );
}

#[test]
fn what_does_not_leave_is_an_error_with_its_words() {
    let error: Box<dyn Error + Send + Sync> = NotRouted::Unsupported.into();
    assert_eq!(error.to_string(), "Unsupported Request: no port has the packet's bus");
    let refused = NotRouted::from(Refusal::ShortPacket);
    assert_eq!(refused.to_string(), Refusal::ShortPacket.to_string());
}

#[test]
fn packets_and_records_go_through_one_question_mark() {
    fn both(packet: &[u8]) -> Result<u16, NotRouted> {
        let _ = route(&THREE, packet)?;
        Ok(dvsec(&[0; SPACE], 0x100)?.vendor)
    }
    let other = Err(NotRouted::Refused(Refusal::OtherStructure));
    assert_eq!(both(&request(0x45, 0x00, 0x05)), other);
}

#[test]
fn what_leaves_is_shown_in_a_line() {
    let leaving = route(&THREE, &request(0x05, 0x00, 0x0A)).expect("a port has the bus");
    assert_eq!(
        format!("{leaving:?}"),
        "Leaving { port: 2, bytes: [04, 00, 00, 01, 01, 00, 07, 0F, 0A, 18, 00, 04] }"
    );
}

#[test]
fn only_bytes_and_port_tell_what_leaves() {
    let leaving = |bus| route(&THREE, &request(0x05, 0x00, bus)).expect("a port has the bus");
    let same: Leaving = leaving(0x0B);
    assert_eq!(same, leaving(0x0B));
    assert_ne!(same, leaving(0x0C));
}

/// A fresh board over its ordinary and its trusted space.
fn board<'a>([ordinary, trusted]: &'a mut [Vec<u8>; 2], rules: &'a [u8]) -> Board<'a> {
    let description = Description {
        function: 0,
        a: 0x104,
        b: 0x00C,
        edition: Edition::One,
    };
    let [first, second] = [ordinary, trusted].map(|bytes| Space {
        bytes,
        rules,
        marks: &NO_MARKS,
    });
    Board::fresh(description, first, second)
}

/// A Type 1 write tells the board its bus and device, through the switch; then a trusted write through it lands.
#[test]
fn boards_behind_a_switch_are_reached() {
    let rules = vec![0xFF; SPACE];
    let mut spaces = [(); 2].map(|()| [vec![0; SPACE], vec![0; SPACE]]);
    let mut boards = spaces.each_mut().map(|both| board(both, &rules));
    let ports = [port(0x05, 0x05, true), port(0x06, 0x06, true)];
    for type_code in [0x45, 0x5B] {
        let leaving = route(&ports, &request(type_code, 0x00, 0x06)).expect("the second port has the bus");
        boards[leaving.port()].serve(leaving.bytes()).expect("it is done");
    }
    let captured = Some(Capture { bus: 0x06, device: 3 });
    assert_eq!(boards.map(|board| board.capture), [None, captured]);
    for (both, written) in spaces.iter().zip([[0; 4], [0x11, 0x22, 0x33, 0x44]]) {
        assert!(both.iter().all(|space| space[0x004..0x008] == written));
    }
}
