//! The natural code notices what was not done: `?` stops there, and the completion is at hand all the same.
#![forbid(unsafe_code)]

mod common;

use common::{SPACE, TRUSTED_READ, WRITE, WRITTEN, is_completion};
use std::error::Error;
use thawribbon::{Board, Capture, Completion, Description, Edition, NO_MARKS, NotDone, Refusal, Space, Status, dvsec};

const DESCRIPTION: Description = Description {
    function: 0,
    a: 0x104,
    b: 0x00C,
    edition: Edition::One,
};

/// What is lent to a board, with all bits writable.
struct Lent {
    ordinary: Vec<u8>,
    trusted: Vec<u8>,
    rules: Vec<u8>,
}

impl Lent {
    fn new() -> Self {
        Lent {
            ordinary: vec![0x51; SPACE],
            trusted: vec![0x72; SPACE],
            rules: vec![0xFF; SPACE],
        }
    }

    fn board(&mut self) -> Board<'_> {
        let rules = &self.rules;
        let [ordinary, trusted] = [&mut self.ordinary, &mut self.trusted].map(|bytes| Space {
            bytes,
            rules,
            marks: &NO_MARKS,
        });
        Board::fresh(DESCRIPTION, ordinary, trusted)
    }
}

/// P2's packet, with another byte somewhere.
fn write_with(at: usize, byte: u8) -> [u8; 16] {
    let mut packet = WRITE;
    packet[at] = byte;
    packet
}

/// A host's own function, which wants a write to land.
fn renew(board: &mut Board, packet: &[u8]) -> Result<(), NotDone> {
    board.serve(packet)?;
    Ok(())
}

#[test]
fn a_question_mark_stops_at_every_write_that_is_unsupported() {
    let trusted = write_with(0, 0x5B);
    let other_device = {
        let mut packet = trusted;
        packet[9] = 0x20;
        packet
    };
    let causes = [
        ("a Type 1 request", write_with(0, 0x45), FIVE_THREE),
        ("another function", write_with(9, 0x19), FIVE_THREE),
        ("nothing captured", trusted, None),
        ("another device", other_device, FIVE_THREE),
        ("a poisoned write", write_with(2, 0x40), FIVE_THREE),
    ];
    for (why, packet, capture) in causes {
        let mut lent = Lent::new();
        let mut board = lent.board();
        board.capture = capture;
        let Err(NotDone::Unsupported(completion)) = renew(&mut board, &packet) else {
            panic!("{why}: it was not noticed");
        };
        let mut bytes = [0x0A, 0x00, 0x00, 0x00, 0x05, 0x18, 0x20, 0x04, 0x01, 0x00, 0x07, 0x00];
        if capture.is_none() {
            bytes[4..6].fill(0x00);
        }
        is_completion(&completion, Status::Unsupported, &bytes);
        assert_eq!(board.capture, capture, "{why}");
        assert_eq!(lent.ordinary, vec![0x51; SPACE], "{why}");
        assert_eq!(lent.trusted, vec![0x72; SPACE], "{why}");
    }
}

const FIVE_THREE: Option<Capture> = Some(Capture { bus: 0x05, device: 3 });

#[test]
fn a_question_mark_stops_at_what_is_refused_and_goes_on_where_it_was_done() {
    let mut lent = Lent::new();
    let mut board = lent.board();
    assert_eq!(
        renew(&mut board, &WRITE[..15]),
        Err(NotDone::Refused(Refusal::WrongLength))
    );
    assert_eq!(board.capture, None);
    assert_eq!(renew(&mut board, &WRITE), Ok(()));
    assert_eq!(board.capture, FIVE_THREE);
    assert_eq!(lent.ordinary[0x004..0x008], [0x11, 0x22, 0x33, 0x44]);
}

#[test]
fn a_completion_says_who_answers_whom_about_what() {
    let mut lent = Lent::new();
    let mut board = lent.board();
    for (requester, tag) in [([0x00, 0x00], 0x00), ([0xFF, 0xFF], 0xFF), ([0x12, 0xA5], 0x3C)] {
        let mut packet = WRITE;
        packet[4..6].copy_from_slice(&requester);
        packet[6] = tag;
        let completion = board.serve(&packet).expect("a write");
        let mut bytes = WRITTEN;
        bytes[8..10].copy_from_slice(&requester);
        bytes[10] = tag;
        is_completion(&completion, Status::Successful, &bytes);
    }
    let read = board.serve(&TRUSTED_READ).expect("a read");
    assert_eq!(read.data(), Some([0x72; 4]));
    assert_eq!(read.completer().to_string(), "05:03.0");
}

/// Both completions of P1 and P2.
fn first_two() -> (NotDone, Completion) {
    let mut lent = Lent::new();
    let mut board = lent.board();
    let not_done = board.serve(&TRUSTED_READ).expect_err("P1");
    (not_done, board.serve(&WRITE).expect("P2"))
}

#[test]
fn what_was_not_done_has_a_completion_only_where_it_is_unsupported() {
    let (unsupported, _) = first_two();
    let completion = unsupported.completion().expect("an Unsupported Request has one");
    assert_eq!(completion.status(), Status::Unsupported);
    assert_eq!(NotDone::Refused(Refusal::ShortPacket).completion(), None);
}

#[test]
fn what_was_not_done_is_an_error_with_its_words() {
    let (unsupported, _) = first_two();
    let error: Box<dyn Error + Send + Sync> = unsupported.into();
    assert_eq!(
        error.to_string(),
        "Unsupported Request: the access was not done (requester 01:00.0, tag 08h, completer 00:00.0)"
    );
    let refused = NotDone::from(Refusal::ShortPacket);
    assert_eq!(refused.to_string(), Refusal::ShortPacket.to_string());
}

#[test]
fn packets_and_records_go_through_one_question_mark() {
    fn both(board: &mut Board) -> Result<u16, NotDone> {
        board.serve(&WRITE)?;
        Ok(dvsec(board.ordinary.bytes, 0x100)?.vendor)
    }
    let mut lent = Lent::new();
    assert_eq!(both(&mut lent.board()), Err(NotDone::Refused(Refusal::OtherStructure)));
}

#[test]
fn a_completion_is_shown_in_a_line() {
    let (unsupported, written) = first_two();
    assert_eq!(
        format!("{written:?}"),
        "Completion { status: Successful, data: None, completer: 05:03.0, requester: 01:00.0, tag: 07 }"
    );
    assert_eq!(
        format!("{unsupported:?}"),
        "Unsupported(Completion { status: Unsupported, data: None, completer: 00:00.0, requester: 01:00.0, tag: 08 })"
    );
}

#[test]
fn a_board_is_shown_without_its_bytes() {
    let shown = format!("{:?}", Lent::new().board());
    assert_eq!(
        shown,
        "Board { description: Description { function: 0, a: 260, b: 12, edition: One }, capture: None, \
         ordinary: Space { bytes: 4096 bytes, rules: 4096 bytes, marks: 4096 bytes }, \
         trusted: Space { bytes: 4096 bytes, rules: 4096 bytes, marks: 4096 bytes } }"
    );
}
