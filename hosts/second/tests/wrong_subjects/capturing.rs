//! Wrong ways to capture, to keep a capture and to reset.

use second::compare::{Reference, ServeCall, Subject, meaning, plain};
use thawribbon::raw::{Capture, Served};

use crate::harness::{Wrong, expect_caught};
use crate::serving::{again, code, rehearsed, short_completion, succeeds, target};

#[test]
fn captures_from_a_trusted_write() {
    let captures = |mut call: ServeCall<'_>| {
        let served = Reference.serve(again(&mut call));
        let capture = if served.number == 0 && code(&call) == 0x5B {
            plain(Some(target(call.packet)))
        } else {
            served.capture
        };
        Served { capture, ..served }
    };
    expect_caught(Wrong::serve(captures), "serve");
}

#[test]
fn captures_from_a_trusted_write_before_any_capture_and_serves_it() {
    let captures = |mut call: ServeCall<'_>| {
        let (served, _) = rehearsed(&mut call);
        if served.number == 0 && code(&call) == 0x5B && call.kept.captured == 0 {
            call.kept = plain(Some(target(call.packet)));
        }
        Reference.serve(call)
    };
    expect_caught(Wrong::serve(captures), "serve");
}

#[test]
fn captures_from_a_poisoned_write() {
    let captures = |mut call: ServeCall<'_>| {
        let served = Reference.serve(again(&mut call));
        let poisoned = served.number == 0 && code(&call) == 0x44 && call.packet[2] & 0x40 != 0;
        let capture = if poisoned {
            plain(Some(target(call.packet)))
        } else {
            served.capture
        };
        Served { capture, ..served }
    };
    expect_caught(Wrong::serve(captures), "serve");
}

#[test]
fn captures_from_an_ordinary_read() {
    let captures = |mut call: ServeCall<'_>| {
        let served = Reference.serve(again(&mut call));
        let read = served.number == 0 && code(&call) == 0x04;
        let capture = if read {
            plain(Some(target(call.packet)))
        } else {
            served.capture
        };
        Served { capture, ..served }
    };
    expect_caught(Wrong::serve(captures), "serve");
}

#[test]
fn captures_after_the_reply_is_written() {
    let late = |mut call: ServeCall<'_>| {
        let served = Reference.serve(again(&mut call));
        if served.number == 0 {
            let (bus, device) = meaning(call.kept).unwrap_or((0, 0));
            call.reply[4] = bus;
            call.reply[5] = device << 3 | call.description.function;
        }
        served
    };
    expect_caught(Wrong::serve(late), "serve");
}

#[test]
fn does_not_capture_with_no_byte_enabled() {
    let needs_a_byte = |mut call: ServeCall<'_>| {
        if succeeds(&mut call) && code(&call) == 0x44 && call.packet[7] & 0x0F == 0 {
            let kept = meaning(call.kept);
            return short_completion(&mut call, kept, 0);
        }
        Reference.serve(call)
    };
    expect_caught(Wrong::serve(needs_a_byte), "serve");
}

#[test]
fn capture_normalised_on_refusal() {
    let normalised = |mut call: ServeCall<'_>| {
        let served = Reference.serve(again(&mut call));
        Served {
            capture: plain(meaning(served.capture)),
            ..served
        }
    };
    expect_caught(Wrong::serve(normalised), "serve");
}

#[test]
fn capture_not_normalised_on_number_0() {
    let as_given = |mut call: ServeCall<'_>| {
        let served = Reference.serve(again(&mut call));
        let same = meaning(served.capture) == meaning(call.kept);
        Served {
            capture: if same { call.kept } else { served.capture },
            ..served
        }
    };
    expect_caught(Wrong::serve(as_given), "serve");
}

#[test]
fn capture_with_trailing_function_bits() {
    let trailing = |mut call: ServeCall<'_>| {
        let served = Reference.serve(again(&mut call));
        let captures = served.number == 0 && code(&call) == 0x44 && call.reply[6] == 0;
        let capture = Capture {
            captured: 1,
            bus: call.packet.get(8).copied().unwrap_or(0),
            device: 0,
        };
        let device = call.packet.get(9).copied().unwrap_or(0);
        if captures {
            Served {
                capture: Capture { device, ..capture },
                ..served
            }
        } else {
            served
        }
    };
    expect_caught(Wrong::serve(trailing), "serve");
}

#[test]
fn only_1_counts_as_captured() {
    let only_one = |mut call: ServeCall<'_>| {
        if call.kept.captured > 1 {
            let (served, _) = rehearsed(&mut call);
            call.kept = if served.number == 0 { plain(None) } else { call.kept };
        }
        Reference.serve(call)
    };
    expect_caught(Wrong::serve(only_one), "serve");
}

#[test]
fn nothing_captured_taken_as_bus_0_and_device_0() {
    let taken = |mut call: ServeCall<'_>| {
        let (served, _) = rehearsed(&mut call);
        let kept = call.kept;
        let zero = served.number == 0 && kept.captured == 0 && code(&call) & 0x3F == 0x1B;
        call.kept = if zero { plain(Some((0, 0))) } else { kept };
        let served = Reference.serve(call);
        if zero {
            Served {
                capture: plain(None),
                ..served
            }
        } else {
            served
        }
    };
    expect_caught(Wrong::serve(taken), "serve");
}

#[test]
fn bytes_beside_nothing_captured_taken_as_a_capture() {
    let taken = |mut call: ServeCall<'_>| {
        let (served, _) = rehearsed(&mut call);
        let nothing = served.number == 0 && call.kept.captured == 0 && call.kept.device < 32;
        let trusted = nothing && code(&call) & 0x3F == 0x1B && target(call.packet) == (call.kept.bus, call.kept.device);
        call.kept.captured = if trusted { 1 } else { call.kept.captured };
        let served = Reference.serve(call);
        if trusted {
            Served {
                capture: plain(None),
                ..served
            }
        } else {
            served
        }
    };
    expect_caught(Wrong::serve(taken), "serve");
}

#[test]
fn a_device_over_31_refused_while_nothing_is_captured() {
    let refused = |call: ServeCall<'_>| {
        if call.kept.captured == 0 && call.kept.device > 31 {
            return Served {
                number: 1,
                length: 0,
                capture: call.kept,
            };
        }
        Reference.serve(call)
    };
    expect_caught(Wrong::serve(refused), "serve");
}

#[test]
fn a_reset_that_keeps_the_capture() {
    expect_caught(Wrong::reset(|kept| kept), "reset");
}

#[test]
fn a_reset_that_leaves_the_bus() {
    expect_caught(Wrong::reset(|kept| Capture { captured: 0, ..kept }), "reset");
}
