//! Both sides together: what is written is served, and what is served reads back as the same completion, and as the
//! request's own.
#![forbid(unsafe_code)]

mod common;

use common::SPACE;
use common::asking::{HOST, KINDS, TARGET, id, reads, request};
use thawribbon::{Board, Completion, Description, Edition, Kind, NO_MARKS};
use thawribbon::{NotAnswered, NotDone, Refusal, Request, Said, Space};

/// The board of the bench sheet, fresh, with rules FFh everywhere.
fn with_board(run: impl FnOnce(&mut Board)) {
    let (mut ordinary, mut trusted, rules) = ([0x51; SPACE], [0x72; SPACE], [0xFF; SPACE]);
    trusted[0x004..0x008].copy_from_slice(&[0x08, 0x00, 0x00, 0x00]);
    run(&mut Board::fresh(
        Description {
            function: 0,
            a: 0x104,
            b: 0x00C,
            edition: Edition::One,
        },
        Space {
            bytes: &mut ordinary,
            rules: &rules,
            marks: &NO_MARKS,
        },
        Space {
            bytes: &mut trusted,
            rules: &rules,
            marks: &NO_MARKS,
        },
    ));
}

/// Written, served and read back. What is read back is what the board gave.
fn ask(board: &mut Board, request: Request) -> Result<Said, NotAnswered> {
    let gave = board.serve(&request.packet()?);
    let (Ok(completion) | Err(NotDone::Unsupported(completion))) = gave else {
        return Err(gave.expect_err("it is refused").into());
    };
    assert_eq!(Completion::read(completion.bytes()), gave);
    reads(completion.bytes(), 0);
    Ok(request.answered_by(completion.bytes())?.said())
}

/// P1, P2 and P3, from their parts to what the host hears.
#[test]
fn the_bench_sheet() {
    with_board(|board| {
        let read = Request::trusted_read(TARGET, 0x004).by(HOST, 8);
        let write = Request::type0_write(TARGET, 0x004, [0x11, 0x22, 0x33, 0x44]).by(HOST, 7);
        let Err(NotAnswered::Unsupported(completion)) = ask(board, read) else {
            panic!("it was done")
        };
        assert_eq!(completion.completer(), id(0, 0, 0));
        assert_eq!(ask(board, write), Ok(Said::Done));
        assert_eq!(ask(board, read), Ok(Said::Data([0x08, 0x00, 0x00, 0x00])));
        assert_eq!(board.ordinary.bytes[0x004..0x008], [0x11, 0x22, 0x33, 0x44]);
    });
}

/// What a board that captured 05h and 3 says to a request that is for it.
fn expected(kind: Kind, held: [u8; 4]) -> Result<Said, ()> {
    match kind {
        Kind::Type1Read | Kind::Type1Write => Err(()),
        _ if kind.writes() => Ok(Said::Done),
        _ => Ok(Said::Data(held)),
    }
}

/// Every kind with every enable, at the first, a middle and the last offset, and for another function.
#[test]
fn a_round_trip_of_each_kind() {
    let first = Request::type0_write(TARGET, 0, [0; 4]).enabling(0);
    for kind in KINDS {
        for (offset, enables) in [0x000, 0x3A8, 0xFFC]
            .into_iter()
            .flat_map(|at| (0..16).map(move |one| (at, one)))
        {
            with_board(|board| {
                assert_eq!(ask(board, first), Ok(Said::Done));
                let request = request(kind, TARGET, offset, [1, 2, 3, 4])
                    .by([0xFF, 0xFF], 0xFE)
                    .enabling(enables);
                let held = [if kind == Kind::TrustedRead { 0x72 } else { 0x51 }; 4];
                let heard = ask(board, request);
                assert_eq!(
                    heard.map_err(|error| assert!(matches!(error, NotAnswered::Unsupported(_)))),
                    expected(kind, held)
                );
                let other = ask(
                    board,
                    Request {
                        target: id(0x05, 3, 1),
                        ..request
                    },
                );
                assert!(matches!(other, Err(NotAnswered::Unsupported(_))));
            });
        }
    }
}

/// A completion is of a request only with its requester, with its tag, and with data exactly where it reads.
#[test]
fn a_completion_of_another_request() {
    let shown = [0x4A, 0, 0, 1, 5, 0x18, 0x00, 4, 0x12, 0xAB, 0x34, 0, 8, 0, 0, 0];
    let done = [0x0A, 0, 0, 0, 5, 0x18, 0x00, 4, 0x12, 0xAB, 0x34, 0];
    let unsupported = [0x0A, 0, 0, 0, 5, 0x18, 0x20, 4, 0x12, 0xAB, 0x34, 0];
    let asker = [0x12, 0xAB];
    for kind in KINDS {
        let own = request(kind, TARGET, 0x004, [0; 4]).by(asker, 0x34);
        let (mine, not_mine) = if kind.writes() {
            (&done[..], &shown[..])
        } else {
            (&shown[..], &done[..])
        };
        assert_eq!(
            own.answered_by(mine).map(|completion| completion.bytes().to_vec()),
            Ok(mine.to_vec())
        );
        assert!(matches!(
            own.answered_by(&unsupported),
            Err(NotAnswered::Unsupported(_))
        ));
        assert!(matches!(own.answered_by(not_mine), Err(NotAnswered::Other(_))));
        for bit in 0..8 {
            for other in [[0x12 ^ 1 << bit, 0xAB], [0x12, 0xAB ^ 1 << bit]] {
                is_other(own.by(other, 0x34), [mine, &unsupported]);
            }
            is_other(own.by(asker, 0x34 ^ 1 << bit), [mine, &unsupported]);
        }
    }
}

fn is_other(request: Request, completions: [&[u8]; 2]) {
    for bytes in completions {
        let answer = request.answered_by(bytes);
        let Err(NotAnswered::Other(completion)) = answer else {
            panic!("{request:?}: {answer:?}")
        };
        assert_eq!(completion.bytes(), bytes);
    }
}

/// Each place where something can be refused says so by the same type.
#[test]
fn what_is_refused() {
    with_board(|board| {
        let read = Request::type0_read(TARGET, 0x004);
        assert_eq!(
            ask(board, read.enabling(16)),
            Err(NotAnswered::Refused(Refusal::BadDescription))
        );
        for (length, refusal) in [
            (0, Refusal::ShortPacket),
            (12, Refusal::UnknownType),
            (16, Refusal::UnknownType),
        ] {
            assert_eq!(read.answered_by(&vec![0; length]), Err(NotAnswered::Refused(refusal)));
        }
        board.description.function = 8;
        assert_eq!(ask(board, read), Err(NotAnswered::Refused(Refusal::BadDescription)));
    });
}

#[test]
fn why_it_is_not_answered_is_said() {
    let bytes = [0x0A, 0, 0, 0, 5, 0x18, 0x20, 4, 1, 0, 8, 0];
    let ask = |requester: [u8; 2]| Request::type0_read(TARGET, 0).by(requester, 8).answered_by(&bytes);
    let says = |error: NotAnswered| {
        (
            error.to_string(),
            error.completion().map(|completion| completion.bytes().to_vec()),
        )
    };
    let whose = "(requester 01:00.0, tag 08h, completer 05:03.0)";
    let texts = [
        format!("Unsupported Request: the access was not done {whose}"),
        format!("the completion is another request's {whose}"),
    ];
    for (requester, text) in [HOST, [0x05, 0x18]].into_iter().zip(texts) {
        assert_eq!(ask(requester).map_err(says), Err((text, Some(bytes.to_vec()))));
    }
    let refused = NotAnswered::from(Refusal::NoRoom);
    assert_eq!(says(refused), (Refusal::NoRoom.to_string(), None));
    let error: Box<dyn std::error::Error + Send + Sync> = refused.into();
    assert!(error.to_string().starts_with("refused with 2: "));
}
