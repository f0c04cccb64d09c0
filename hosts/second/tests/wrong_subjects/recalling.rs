//! Subjects that answer a packet that comes again from memory. With nothing between, that is right; request 12/13 says no
//! more, and whatever comes between has to be seen.

use std::cell::RefCell;
use std::rc::Rc;

use second::compare::{Reference, Subject};
use thawribbon::raw::Routed;

use crate::coupler;
use crate::harness::{Wrong, expect_doubles_not_caught, expect_repeats_caught, expect_repeats_not_caught};
use crate::recaller::{Key, Memory, as_before, by_bytes, by_tag, recalling, recalling_two, two_as_before};
use crate::serving::{again, code};

#[test]
fn the_form_of_these_with_nothing_wrong_is_not_caught() {
    expect_repeats_not_caught(recalling(8, by_bytes, |_, _, _| None));
    expect_repeats_not_caught(recalling_two(8, by_bytes, |_, _, _| None));
}

#[test]
fn a_memory_of_the_last_packet_is_right_with_nothing_between() {
    for key in [by_bytes as Key, by_tag] {
        expect_doubles_not_caught(recalling(1, key, as_before));
        expect_doubles_not_caught(recalling_two(1, key, two_as_before));
    }
}

#[test]
fn a_memory_of_the_last_packet_is_caught_with_something_between() {
    for key in [by_bytes as Key, by_tag] {
        expect_repeats_caught(recalling(1, key, as_before), "serve");
        expect_repeats_caught(recalling_two(1, key, two_as_before), "serve_pair");
    }
}

#[test]
fn a_memory_of_more_packets_is_caught() {
    for most in [2, 4, 1000] {
        expect_repeats_caught(recalling(most, by_bytes, as_before), "serve");
        expect_repeats_caught(recalling_two(most, by_bytes, two_as_before), "serve_pair");
    }
}

/// Only reads, only writes, only trusted packets, or only those of Type 0 are answered from memory.
#[test]
fn a_memory_of_some_packets_is_caught() {
    let are_such: [fn(u8) -> bool; 4] = [
        |code| code & 0x40 == 0,
        |code| code & 0x40 != 0,
        |code| code & 0x3F == 0x1B,
        |code| code & 0x3F == 0x04,
    ];
    for is_such in are_such {
        let some = move |call: &mut second::compare::ServeCall<'_>, served, reply: &[u8]| {
            is_such(code(call)).then(|| as_before(call, served, reply)).flatten()
        };
        expect_repeats_caught(recalling(2, by_bytes, some), "serve");
    }
}

/// Only packets that got UR are answered from memory: what they ask for may be captured then.
#[test]
fn a_memory_of_what_got_unsupported_request_is_caught() {
    let unsupported = |call: &mut second::compare::ServeCall<'_>, served, reply: &[u8]| {
        (reply[6] == 0x20).then(|| as_before(call, served, reply)).flatten()
    };
    expect_repeats_caught(recalling(4, by_bytes, unsupported), "serve");
}

/// The memory is given up with a reset, so that only the board itself, another packet or another state come between.
#[test]
fn a_memory_that_a_reset_clears_is_caught() {
    let memory = Rc::new(RefCell::new(Memory::new(1, by_bytes)));
    let cleared = Rc::clone(&memory);
    let forgets = move |kept| {
        *cleared.borrow_mut() = Memory::new(1, by_bytes);
        Reference.reset(kept)
    };
    let serves = move |mut call: second::compare::ServeCall<'_>| {
        let mut memory = memory.borrow_mut();
        let known = memory.recall(call.packet);
        if let Some(served) = known.and_then(|(served, reply)| as_before(&mut call, served, reply)) {
            return served;
        }
        let served = Reference.serve(again(&mut call));
        if served.number == 0 {
            memory.keep(call.packet, served, &call.reply[..served.length]);
        }
        served
    };
    expect_repeats_caught(Wrong::serve(serves).and_reset(forgets), "serve");
}

/// A memory of the packet and of all that it was served from is right.
#[test]
fn a_memory_of_the_state_too_is_not_caught() {
    let mut last = None;
    expect_repeats_not_caught(Wrong::serve(move |mut call| {
        let state = |call: &second::compare::ServeCall<'_>| {
            let spaces = [call.ordinary.to_vec(), call.trusted.to_vec()];
            (
                spaces,
                call.description,
                call.kept,
                call.packet.to_vec(),
                call.reply.len(),
            )
        };
        let before = state(&call);
        if let Some((known, served, reply)) = &last {
            if *known == before {
                let reply: &Vec<u8> = reply;
                call.reply[..reply.len()].copy_from_slice(reply);
                return *served;
            }
        }
        let served = Reference.serve(again(&mut call));
        let idle = [call.ordinary.to_vec(), call.trusted.to_vec()] == before.0;
        let described = call.ordinary_rules.len() == 4096 && call.ordinary_marks.len() == 4096;
        if served.number == 0 && idle && described && served.capture == call.kept {
            last = Some((before, served, call.reply[..served.length].to_vec()));
        }
        served
    }));
}

/// A switch that knows packets by their bytes, or by their requester and tag, whatever list of ports it has.
#[test]
fn a_switch_that_remembers_is_caught() {
    for key in [by_bytes as Key, by_tag] {
        let mut memory: Memory<Routed> = Memory::new(8, key);
        let routes = move |ports: &[thawribbon::raw::Port], packet: &[u8], leaving: &mut [u8]| {
            if let Some((routed, bytes)) = memory.recall(packet) {
                if let Some(room) = leaving.get_mut(..bytes.len()) {
                    room.copy_from_slice(bytes);
                    return routed;
                }
            }
            let routed = Reference.route(ports, packet, leaving);
            if routed.number == 0 {
                memory.keep(packet, routed, &leaving[..routed.length]);
            }
            routed
        };
        expect_repeats_caught(Wrong::route(routes), "route");
    }
}

/// A board of two functions whose memory does not look at whom a packet is for, or is for one of them only.
#[test]
fn a_memory_of_one_function_is_caught() {
    for side in coupler::SIDES {
        let of_one = move |call: &mut second::compare::DuoCall<'_>, served, reply: &[u8]| {
            (coupler::whom(call) == Some(side))
                .then(|| two_as_before(call, served, reply))
                .flatten()
        };
        expect_repeats_caught(recalling_two(2, by_bytes, of_one), "serve_pair");
    }
}
