//! The capture as C sees it: all 256 values of `captured`, and every device.
#![forbid(unsafe_code)]

mod common;

use common::{Bench, TRUSTED_READ, WRITE, WRITTEN};
use thawribbon::{Board, Capture, Description, Edition, NO_MARKS, NotDone, SPACE, Space, raw};

const FIVE_THREE: Option<Capture> = Some(Capture { bus: 0x05, device: 3 });

#[test]
fn any_value_but_0_means_captured() {
    let unsupported = [0x0A, 0x00, 0x00, 0x00, 0x00, 0x00, 0x20, 0x04, 0x01, 0x00, 0x08, 0x00];
    let data = [
        0x4A, 0x00, 0x00, 0x01, 0x05, 0x18, 0x00, 0x04, 0x01, 0x00, 0x08, 0x00, 0x08, 0x00, 0x00, 0x00,
    ];
    for captured in 0..=255 {
        let mut bench = Bench::fresh();
        bench.kept = raw::Capture {
            captured,
            bus: 0x05,
            device: 3,
        };
        if captured == 0 {
            bench.answers(&TRUSTED_READ, &unsupported, None);
        } else {
            bench.answers(&TRUSTED_READ, &data, FIVE_THREE);
        }
        bench.kept.captured = captured;
        bench.ordinary.expect(0x004, &[0x11, 0x22, 0x33, 0x44]);
        bench.answers(&WRITE, &WRITTEN, FIVE_THREE);
    }
}

#[test]
fn a_refusal_hands_the_capture_back_byte_for_byte() {
    for captured in 0..=255 {
        for (bus, device) in [(0x00, 0x00), (0x05, 3), (0xFF, 31), (0xFF, 0xFF)] {
            let mut bench = Bench::fresh();
            bench.kept = raw::Capture { captured, bus, device };
            bench.refuses(&WRITE[..11], if captured != 0 && device > 31 { 1 } else { 3 });
        }
    }
}

#[test]
fn a_captured_device_over_31_is_refused_and_one_that_is_not_captured_does_not_count() {
    for device in 0..=255 {
        let mut bench = Bench::fresh();
        bench.kept = raw::Capture {
            captured: 1,
            bus: 0x05,
            device,
        };
        if device > 31 {
            bench.refuses(&WRITE, 1);
        }
        bench.kept.captured = 0;
        bench.ordinary.expect(0x004, &[0x11, 0x22, 0x33, 0x44]);
        bench.answers(&WRITE, &WRITTEN, FIVE_THREE);
    }
}

#[test]
fn every_bus_and_every_device_is_captured_and_named_by_the_completer() {
    let buses = (0..=255).map(|bus| (bus, 3));
    let devices = (0..=31).map(|device| (0x05, device));
    for (bus, device) in buses.chain(devices) {
        let mut bench = Bench::fresh();
        let (mut packet, mut completion) = (WRITE, WRITTEN);
        (packet[8], packet[9]) = (bus, device * 8);
        (completion[4], completion[5]) = (bus, device * 8);
        bench.ordinary.expect(0x004, &[0x11, 0x22, 0x33, 0x44]);
        bench.answers(&packet, &completion, Some(Capture { bus, device }));
    }
}

#[test]
fn reset_forgets_any_capture() {
    for captured in 0..=255 {
        for (bus, device) in [(0x00, 0x00), (0x05, 3), (0xFF, 0xFF)] {
            assert_eq!(
                raw::reset(raw::Capture { captured, bus, device }),
                raw::Capture::default()
            );
        }
    }
}

#[test]
fn reset_changes_no_byte_and_the_next_trusted_read_is_unsupported() {
    let (mut ordinary, mut trusted, rules) = (vec![0x51; SPACE], vec![0x72; SPACE], vec![0xFF; SPACE]);
    let description = Description {
        function: 0,
        a: 0x104,
        b: 0x00C,
        edition: Edition::One,
    };
    let rules = &rules;
    let [first, second] = [&mut ordinary, &mut trusted].map(|bytes| Space {
        bytes,
        rules,
        marks: &NO_MARKS,
    });
    let mut board = Board::fresh(description, first, second);
    board.serve(&WRITE).expect("P2");
    assert_eq!(board.capture, FIVE_THREE);
    board.reset();
    assert_eq!(board.capture, None);
    assert!(matches!(board.serve(&TRUSTED_READ), Err(NotDone::Unsupported(_))), "P1");
    let mut expected = vec![0x51; SPACE];
    expected[0x004..0x008].copy_from_slice(&[0x11, 0x22, 0x33, 0x44]);
    assert_eq!(ordinary, expected);
    assert_eq!(trusted, vec![0x72; SPACE]);
}
