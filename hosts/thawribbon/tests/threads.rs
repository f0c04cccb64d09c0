//! Boards in different threads do not meet: each thread has its own buffers, and rules and marks are shared, since they
//! are only read.
#![forbid(unsafe_code)]

use std::thread;
use thawribbon::{Board, Capture, Description, Edition, Function, List, NO_MARKS, Pair, SPACE, Side, Space, chain};

/// Sends a board 1,024 writes, one for each word, with the thread's own bus number and byte, and reads its extended
/// list in between.
fn busy(own: u8, rules: &[u8]) {
    let (mut ordinary, mut trusted) = (vec![0; SPACE], vec![0; SPACE]);
    let description = Description {
        function: 0,
        a: 0xFFC,
        b: 0x00C,
        edition: Edition::One,
    };
    let [first, second] = [&mut ordinary, &mut trusted].map(|bytes| Space {
        bytes,
        rules,
        marks: &NO_MARKS,
    });
    let mut board = Board::fresh(description, first, second);
    for word in 0..1024_u16 {
        let [high, low] = (word * 4).to_be_bytes();
        let packet = [0x44, 0, 0, 1, own, 0, low, 0x0F, own, 0x18, high, low, own, 0, 0, 0];
        let completion = [0x0A, 0, 0, 0, own, 0x18, 0, 0x04, own, 0, low, 0];
        assert_eq!(board.serve(&packet).expect("a write").bytes(), completion);
        assert_eq!(board.capture, Some(Capture { bus: own, device: 3 }));
        let listed: &[u16] = if word < 0x100 / 4 { &[] } else { &[0x100] };
        assert_eq!(chain(List::Extended, board.ordinary.bytes).as_deref(), Ok(listed));
    }
    let mut expected = [own, 0, 0, 0].repeat(1023);
    expected.extend([0; 4]); // at A nothing lands
    assert_eq!(ordinary, expected);
    assert_eq!(trusted, vec![0; SPACE]);
}

#[test]
fn boards_in_eight_threads() {
    let rules = vec![0xFF; SPACE];
    thread::scope(|scope| {
        for own in 1..=8 {
            let rules = &rules;
            scope.spawn(move || busy(own, rules));
        }
    });
}

/// Sends each function of a board of two 1,024 writes, in turn, with the thread's own bus number and byte.
fn busy_pair(own: u8, rules: &[u8]) {
    let mut spaces = [(); 4].map(|()| vec![0; SPACE]);
    let [one, two, three, four] = spaces.each_mut().map(|bytes| Space {
        bytes,
        rules,
        marks: &NO_MARKS,
    });
    let function = |function| Function {
        function,
        a: 0xFFC,
        b: 0x00C,
    };
    let mut pair = Pair {
        edition: Edition::One,
        primary: Side::fresh(function(0), one, two),
        alternate: Side::fresh(function(1), three, four),
    };
    for (word, named) in (0..1024_u16).flat_map(|word| [0, 1].map(|named| (word, named))) {
        let ([high, low], byte_9) = ((word * 4).to_be_bytes(), 0x18 + named);
        let packet = [
            0x44,
            0,
            0,
            1,
            own,
            0,
            low,
            0x0F,
            own,
            byte_9,
            high,
            low,
            own + named,
            0,
            0,
            0,
        ];
        let completion = [0x0A, 0, 0, 0, own, byte_9, 0, 0x04, own, 0, low, 0];
        assert_eq!(pair.serve(&packet).expect("a write").bytes(), completion);
    }
    let captured = Some(Capture { bus: own, device: 3 });
    assert_eq!((pair.primary.capture, pair.alternate.capture), (captured, captured));
    for (named, bytes) in [(0, &spaces[0]), (1, &spaces[2])] {
        let mut expected = [own + named, 0, 0, 0].repeat(1023);
        expected.extend([0; 4]); // at A nothing lands
        assert_eq!(*bytes, expected);
    }
    assert!(spaces[1] == vec![0; SPACE] && spaces[3] == vec![0; SPACE]);
}

#[test]
fn boards_of_two_functions_in_eight_threads() {
    let rules = vec![0xFF; SPACE];
    thread::scope(|scope| {
        for own in 1..=8 {
            let rules = &rules;
            scope.spawn(move || busy_pair(own, rules));
        }
    });
}

/// A board goes from one thread to another, and may be looked at by several.
#[test]
fn boards_can_be_sent_and_shared() {
    fn is_both<T: Send + Sync>() {}
    is_both::<Board<'_>>();
    is_both::<Pair<'_>>();
}
