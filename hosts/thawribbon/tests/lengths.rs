//! Every slice of every function, with every length from 0 to 20 and from 4,090 to 4,100: the number is document 01's,
//! and every lent element is as it should be.
#![forbid(unsafe_code)]

mod common;

use common::{Bench, DUAL_BDF, DVSEC, LISTS, Lent, SPACE, TRUSTED_READ, WRITE, WRITTEN};
use common::{chained, floor, lengths, lent, resized, told, walked};
use thawribbon::{Alternate, Capture, Dvsec, EDITION_1, Refusal, dual_bdf, dvsec, dvsec_body, raw};

const FIVE_THREE: Option<Capture> = Some(Capture { bus: 0x05, device: 3 });

/// P2's packet is served where the space that `pick` picks has 4,096 bytes, and refused with 1 otherwise.
fn every_length_of(pick: fn(&mut Bench) -> &mut Lent<u8>) {
    for length in lengths() {
        let mut bench = Bench::fresh();
        let space = pick(&mut bench);
        *space = lent(&resized(space.part(), length));
        if length == SPACE {
            bench.ordinary.expect(0x004, &[0x11, 0x22, 0x33, 0x44]);
            bench.answers(&WRITE, &WRITTEN, FIVE_THREE);
        } else {
            bench.refuses(&WRITE, 1);
        }
    }
}

#[test]
fn ordinary_space() {
    every_length_of(|bench| &mut bench.ordinary);
}

#[test]
fn ordinary_rules() {
    every_length_of(|bench| &mut bench.ordinary_rules);
}

#[test]
fn ordinary_marks() {
    every_length_of(|bench| &mut bench.ordinary_marks);
}

#[test]
fn trusted_space() {
    every_length_of(|bench| &mut bench.trusted);
}

#[test]
fn trusted_rules() {
    every_length_of(|bench| &mut bench.trusted_rules);
}

#[test]
fn trusted_marks() {
    every_length_of(|bench| &mut bench.trusted_marks);
}

#[test]
fn reply() {
    let read = [
        0x4A, 0x00, 0x00, 0x01, 0x05, 0x18, 0x00, 0x04, 0x01, 0x00, 0x08, 0x00, 0x08, 0x00, 0x00, 0x00,
    ];
    for length in lengths() {
        let mut bench = Bench::captured();
        bench.reply = lent(&vec![0xEE; length]);
        if length < 16 {
            bench.refuses(&WRITE, 2);
            bench.refuses(&TRUSTED_READ, 2);
        } else {
            bench.answers(&TRUSTED_READ, &read, FIVE_THREE);
            bench.ordinary.expect(0x004, &[0x11, 0x22, 0x33, 0x44]);
            bench.answers(&WRITE, &WRITTEN, FIVE_THREE);
        }
        bench.description.function = 8;
        bench.refuses(&WRITE, 1);
    }
}

/// What the six types give at 004h on a board that captured: how long the packet is without a digest, and the
/// completion.
fn expected(type_code: u8) -> (usize, Vec<u8>) {
    let status = if type_code & 0x3F == 0x05 { 0x20 } else { 0x00 };
    let mut completion = vec![0x0A, 0x00, 0x00, 0x00, 0x05, 0x18, status, 0x04, 0x01, 0x00, 0x07, 0x00];
    if type_code == 0x04 || type_code == 0x1B {
        completion[..4].copy_from_slice(&[0x4A, 0x00, 0x00, 0x01]);
        completion.extend(if type_code == 0x04 {
            [0x51; 4]
        } else {
            [0x08, 0x00, 0x00, 0x00]
        });
    }
    (if type_code & 0x40 == 0 { 12 } else { 16 }, completion)
}

#[test]
fn packet_of_each_type_with_and_without_digest() {
    for type_code in [0x04, 0x44, 0x05, 0x45, 0x1B, 0x5B] {
        for digest in [0x00, 0x80] {
            let (plain, completion) = expected(type_code);
            let whole = if digest == 0 { plain } else { plain + 4 };
            for length in lengths() {
                let mut packet = resized(&WRITE, length);
                for (byte, value) in packet.iter_mut().zip([type_code, 0x00, digest]) {
                    *byte = value;
                }
                let mut bench = Bench::captured();
                match type_code {
                    _ if length < 12 => bench.refuses(&packet, 3),
                    _ if length != whole => bench.refuses(&packet, 5),
                    0x44 => {
                        bench.ordinary.expect(0x004, &[0x11, 0x22, 0x33, 0x44]);
                        bench.answers(&packet, &completion, FIVE_THREE);
                    }
                    0x5B => {
                        bench.trusted.expect(0x004, &[0x11, 0x22, 0x33, 0x44]);
                        bench.answers(&packet, &completion, FIVE_THREE);
                    }
                    _ => bench.answers(&packet, &completion, FIVE_THREE),
                }
            }
        }
    }
}

/// The causes of 1 to 6 on one call, each there or not: the lowest is given.
#[test]
fn the_lowest_number_is_given() {
    for causes in 1..64 {
        let applies = |number: u32| causes >> (number - 1) & 1 == 1;
        let mut bench = Bench::captured();
        let mut packet = WRITE.to_vec();
        if applies(6) {
            packet[7] = 0x1F;
        }
        if applies(5) {
            packet.push(0);
        }
        if applies(4) {
            packet[0] = 0x00;
        }
        if applies(3) {
            packet.truncate(11);
        }
        if applies(2) {
            bench.reply = lent(&[0xEE; 15]);
        }
        if applies(1) {
            bench.trusted_rules = lent(&[0; SPACE - 1]);
        }
        let lowest = (1..=6).find(|&number| applies(number)).expect("one cause at least");
        bench.refuses(&packet, lowest as u8);
    }
}

#[test]
fn nothing_but_empty_slices() {
    let description = raw::Description {
        function: 0,
        a: 0x104,
        b: 0x00C,
        edition: EDITION_1,
    };
    let kept = raw::Capture {
        captured: 7,
        bus: 0x05,
        device: 3,
    };
    let served = raw::serve(description, kept, &mut [], &[], &[], &mut [], &[], &[], &[], &mut []);
    let refused = raw::Served {
        length: 0,
        number: 1,
        capture: kept,
    };
    assert_eq!(served, refused);
    for walk in [raw::walk_compatible, raw::walk_extended, raw::walk_trusted] {
        assert_eq!(
            walk(&[], &mut []),
            raw::Walked {
                count: 0,
                number: 1,
                place: 0
            }
        );
        assert_eq!(
            walk(&[0; SPACE], &mut []),
            raw::Walked {
                count: 0,
                number: 2,
                place: 0
            }
        );
    }
    tells_nothing_but_1(&[]);
}

/// Both records are refused with 1, and nothing else is told of them.
fn tells_nothing_but_1(space: &[u8]) {
    let header = raw::Dvsec {
        number: 1,
        ..raw::Dvsec::default()
    };
    let alternate = raw::Alternate {
        number: 1,
        ..raw::Alternate::default()
    };
    assert_eq!(raw::dvsec(space, 0x100), header);
    assert_eq!(raw::dvsec_body(space, 0x100), raw::Part::default());
    assert_eq!(raw::dual_bdf(space, 0x040), alternate);
    assert_eq!(dvsec_body(space, 0x100), None);
}

#[test]
fn space_of_each_walk() {
    for list in LISTS {
        let offsets = [floor(list), floor(list) + 8];
        for length in lengths() {
            let space = resized(&chained(list, &offsets, 0), length);
            let (number, listed) = if length == SPACE {
                (0, &offsets[..])
            } else {
                (1, &[][..])
            };
            assert_eq!(
                walked(list, &space, list.maximum(), listed),
                number,
                "{list:?}, {length} bytes"
            );
            // The space's size counts before the room's.
            assert_eq!(walked(list, &space, 0, &[]), if length == SPACE { 2 } else { 1 });
        }
    }
}

#[test]
fn room_of_each_walk() {
    for list in LISTS {
        let offsets = [floor(list), floor(list) + 8];
        let (sound, broken) = (chained(list, &offsets, 0), chained(list, &offsets, floor(list)));
        let near_maximum = list.maximum() - 2..=list.maximum() + 2;
        for length in lengths().chain(near_maximum) {
            let (number, listed) = if length < list.maximum() {
                (2, &[][..])
            } else {
                (0, &offsets[..])
            };
            assert_eq!(
                walked(list, &sound, length, listed),
                number,
                "{list:?}, room for {length}"
            );
            // The room's size counts before the chain.
            let expected = if number == 0 { (12, offsets[1]) } else { (2, 0) };
            assert_eq!(told(list, &broken, length), expected);
        }
    }
}

#[test]
fn space_of_each_record() {
    for length in lengths() {
        let mut whole = vec![0; SPACE];
        whole[0x040..0x04C].copy_from_slice(&DUAL_BDF);
        whole[0x100..0x10A].copy_from_slice(&DVSEC);
        let space = lent(&resized(&whole, length));
        let (header, alternate) = (dvsec(space.part(), 0x100), dual_bdf(space.part(), 0x040));
        let body = dvsec_body(space.part(), 0x100);
        if length == SPACE {
            assert_eq!(
                header,
                Ok(Dvsec {
                    vendor: 0x1EC0,
                    revision: 0,
                    id: 0x0002,
                    length: 0x10
                })
            );
            assert_eq!(alternate, Ok(Alternate { function: 1, device: 3 }));
            let place = space.part()[0x10A..0x110].as_ptr_range();
            assert_eq!(body.map(<[u8]>::as_ptr_range), Some(place));
        } else {
            assert_eq!(header, Err(Refusal::BadDescription));
            assert_eq!(alternate, Err(Refusal::BadDescription));
            assert_eq!(body, None);
            tells_nothing_but_1(space.part());
        }
        space.check("the space");
    }
}
