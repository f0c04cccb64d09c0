//! What the tests share: buffers with guards, the board of the bench sheet, one of two functions, a switch, the asking side,
//! a switch's multicast, new boards, and spaces with chains.
//!
//! Every call is followed by a look at every lent element and at the guards around it.
#![allow(dead_code)] // each test file uses a part of this

pub mod asking;
pub mod multicast;
pub mod pair;
pub mod switch;
pub mod workshop;

use std::fmt::Debug;
use std::hint::black_box;
use thawribbon::{Board, Capture, Completion, Description, EDITION_1, Edition, List};
use thawribbon::{NotDone, Offset, Space, Status, raw, walk};

pub use thawribbon::SPACE;

/// P1's packet: a trusted read at 004h.
pub const TRUSTED_READ: [u8; 12] = [0x1B, 0x00, 0x00, 0x01, 0x01, 0x00, 0x08, 0x0F, 0x05, 0x18, 0x00, 0x04];
/// P2's packet: an ordinary write at 004h.
pub const WRITE: [u8; 16] = [
    0x44, 0x00, 0x00, 0x01, 0x01, 0x00, 0x07, 0x0F, 0x05, 0x18, 0x00, 0x04, 0x11, 0x22, 0x33, 0x44,
];
/// P2's completion.
pub const WRITTEN: [u8; 12] = [0x0A, 0x00, 0x00, 0x00, 0x05, 0x18, 0x00, 0x04, 0x01, 0x00, 0x07, 0x00];
/// P9's record.
pub const DUAL_BDF: [u8; 12] = [0x09, 0x00, 0x0C, 0x00, 0xC0, 0x1E, 0xC0, 0x00, 0x02, 0x00, 0x02, 0x03];
/// P11's record.
pub const DVSEC: [u8; 10] = [0x23, 0x00, 0x01, 0x00, 0xC0, 0x1E, 0x00, 0x01, 0x02, 0x00];

/// The three lists.
pub const LISTS: [List; 3] = [List::Compatible, List::Extended, List::Trusted];

/// The lengths that every slice is tried with.
pub fn lengths() -> impl Iterator<Item = usize> {
    (0..=20).chain(4090..=4100)
}

/// So many bytes: those given, cut off, or followed by zeros.
pub fn resized(bytes: &[u8], length: usize) -> Vec<u8> {
    let mut all = bytes.to_vec();
    all.resize(length, 0);
    all
}

/// A buffer to lend: there are guards on either side of the lent part, and it knows what all of it should hold.
#[derive(Clone)]
pub struct Lent<T> {
    held: Vec<T>,
    expected: Vec<T>,
}

const GUARDS: usize = 4;

impl<T: Copy + PartialEq + Debug> Lent<T> {
    pub fn new(part: &[T], guard: T) -> Self {
        let held = [&[guard; GUARDS], part, &[guard; GUARDS]].concat();
        Lent {
            expected: held.clone(),
            held,
        }
    }

    /// The part that is lent.
    pub fn part(&self) -> &[T] {
        &self.held[GUARDS..self.held.len() - GUARDS]
    }

    /// The part that is lent, to be written.
    pub fn part_mut(&mut self) -> &mut [T] {
        let end = self.held.len() - GUARDS;
        &mut self.held[GUARDS..end]
    }

    /// Sets elements, before a call.
    pub fn set(&mut self, at: usize, values: &[T]) {
        self.part_mut()[at..at + values.len()].copy_from_slice(values);
        self.expect(at, values);
    }

    /// Says what the next call should write.
    pub fn expect(&mut self, at: usize, values: &[T]) {
        self.expected[GUARDS + at..GUARDS + at + values.len()].copy_from_slice(values);
    }

    /// Every element and every guard is as expected.
    pub fn check(&self, name: &str) {
        // A slice lent by `&` is not written, as far as Rust knows; the black box has it looked at all the same.
        let held = black_box(&self.held);
        let differs = held.iter().zip(&self.expected).position(|(is, should)| is != should);
        assert_eq!(
            differs.map(|at| at as isize - GUARDS as isize),
            None,
            "{name} differs at this place"
        );
    }
}

/// A buffer of bytes to lend.
pub fn lent(bytes: &[u8]) -> Lent<u8> {
    Lent::new(bytes, 0xA7)
}

/// A list room to lend.
pub fn room(length: usize) -> Lent<u16> {
    Lent::new(&vec![0xEEEE; length], 0xA7A7)
}

/// A board, a packet and a reply, each buffer with guards.
#[derive(Clone)]
pub struct Bench {
    pub description: raw::Description,
    pub kept: raw::Capture,
    pub ordinary: Lent<u8>,
    pub ordinary_rules: Lent<u8>,
    pub ordinary_marks: Lent<u8>,
    pub trusted: Lent<u8>,
    pub trusted_rules: Lent<u8>,
    pub trusted_marks: Lent<u8>,
    pub packet: Lent<u8>,
    pub reply: Lent<u8>,
}

impl Bench {
    /// The board of the bench sheet, fresh: function 0, edition 1, rules FFh at 004h in both spaces, no marks, trusted 004h
    /// holding 08 00 00 00. All other bytes tell the spaces apart.
    pub fn fresh() -> Self {
        let mut bench = Bench {
            description: raw::Description {
                function: 0,
                a: 0x104,
                b: 0x00C,
                edition: EDITION_1,
            },
            kept: raw::Capture::default(),
            ordinary: lent(&[0x51; SPACE]),
            ordinary_rules: lent(&[0; SPACE]),
            ordinary_marks: lent(&[0; SPACE]),
            trusted: lent(&[0x72; SPACE]),
            trusted_rules: lent(&[0; SPACE]),
            trusted_marks: lent(&[0; SPACE]),
            packet: lent(&[]),
            reply: lent(&[0xEE; 20]),
        };
        bench.ordinary_rules.set(0x004, &[0xFF; 4]);
        bench.trusted_rules.set(0x004, &[0xFF; 4]);
        bench.trusted.set(0x004, &[0x08, 0x00, 0x00, 0x00]);
        bench
    }

    /// The same board after it captured bus 05h and device 3.
    pub fn captured() -> Self {
        let kept = raw::Capture {
            captured: 1,
            bus: 0x05,
            device: 3,
        };
        Bench { kept, ..Bench::fresh() }
    }

    /// The packet is served with 0, the completion and this capture; what the spaces should hold was said by `expect`.
    pub fn answers(&mut self, packet: &[u8], completion: &[u8], capture: Option<Capture>) {
        self.packet = lent(packet);
        self.reply.expect(0, completion);
        let after = capture.map_or(raw::Capture::default(), |Capture { bus, device }| raw::Capture {
            captured: 1,
            bus,
            device,
        });
        let served = self.serve();
        assert_eq!(
            served,
            raw::Served {
                length: completion.len(),
                number: 0,
                capture: after
            }
        );
        self.kept = after;
    }

    /// The packet is refused with this number, and nothing changes.
    pub fn refuses(&mut self, packet: &[u8], number: u8) {
        self.packet = lent(packet);
        let served = self.serve();
        assert_eq!(
            served,
            raw::Served {
                length: 0,
                number,
                capture: self.kept
            }
        );
    }

    /// Serves by `raw::serve`, and from the same state by `Board::serve`: both must agree, and leave every buffer as
    /// expected.
    fn serve(&mut self) -> raw::Served {
        let mut other = self.clone();
        let served = raw::serve(
            self.description,
            self.kept,
            self.ordinary.part_mut(),
            self.ordinary_rules.part(),
            self.ordinary_marks.part(),
            self.trusted.part_mut(),
            self.trusted_rules.part(),
            self.trusted_marks.part(),
            self.packet.part(),
            self.reply.part_mut(),
        );
        self.check();
        // A board has a reply of its own, so it is never refused with 2; and only C and `raw` can name a place that is no
        // `Offset`, and a number that is no edition.
        if let (Some(description), true) = (safe(self.description), served.number != 2) {
            other.serves_alike(description, served, &self.reply.part()[..served.length]);
        }
        served
    }

    /// `Board::serve` does what `raw::serve` has done: the same answer, the same capture, the same bytes.
    fn serves_alike(&mut self, description: Description, served: raw::Served, reply: &[u8]) {
        let mut board = Board {
            description,
            capture: option(self.kept),
            ordinary: Space {
                bytes: self.ordinary.part_mut(),
                rules: self.ordinary_rules.part(),
                marks: self.ordinary_marks.part(),
            },
            trusted: Space {
                bytes: self.trusted.part_mut(),
                rules: self.trusted_rules.part(),
                marks: self.trusted_marks.part(),
            },
        };
        let answer = board.serve(self.packet.part());
        assert_eq!(board.capture, option(served.capture));
        match answer {
            Ok(completion) => is_completion(&completion, Status::Successful, reply),
            Err(NotDone::Unsupported(completion)) => is_completion(&completion, Status::Unsupported, reply),
            Err(NotDone::Refused(refusal)) => assert_eq!((refusal.number(), 0), (served.number, reply.len())),
        }
        self.reply = lent(&[]); // it was not lent
        self.check();
    }

    fn check(&self) {
        self.ordinary.check("the ordinary space");
        self.ordinary_rules.check("the ordinary rules");
        self.ordinary_marks.check("the ordinary marks");
        self.trusted.check("the trusted space");
        self.trusted_rules.check("the trusted rules");
        self.trusted_marks.check("the trusted marks");
        self.packet.check("the packet");
        self.reply.check("the reply");
    }
}

/// A completion is these bytes, and has this status and all else that they say.
pub fn is_completion(completion: &Completion, status: Status, bytes: &[u8]) {
    assert_eq!(completion.bytes(), bytes);
    assert_eq!(completion.status(), status);
    assert_eq!(bytes[6], if status == Status::Successful { 0x00 } else { 0x20 });
    assert_eq!(
        completion.data().as_ref().map_or(&[][..], |data| &data[..]),
        &bytes[12..]
    );
    assert_eq!(completion.tag(), bytes[10]);
    for (id, [bus, rest]) in [
        (completion.completer(), [bytes[4], bytes[5]]),
        (completion.requester(), [bytes[8], bytes[9]]),
    ] {
        assert_eq!((id.bus, id.device * 8 + id.function), (bus, rest));
        assert!(id.device <= 31 && id.function <= 7);
    }
}

/// A description as Rust says it, if it can.
fn safe(description: raw::Description) -> Option<Description> {
    Some(Description {
        function: description.function,
        a: description.a.try_into().ok()?,
        b: description.b.try_into().ok()?,
        edition: Edition::try_from(description.edition).ok()?,
    })
}

/// A capture as Rust says it.
pub fn option(capture: raw::Capture) -> Option<Capture> {
    (capture.captured != 0).then_some(Capture {
        bus: capture.bus,
        device: capture.device,
    })
}

/// The lowest offset a list's pointer may have.
pub fn floor(list: List) -> usize {
    match list {
        List::Compatible => 0x040,
        List::Extended => 0x100,
        List::Trusted => 0x008,
    }
}

/// Has a list start at a pointer. The extended list has no pointer to its start, and always starts at 100h.
pub fn start(space: &mut [u8], list: List, pointer: usize) {
    match list {
        List::Compatible => (space[0x06], space[0x34]) = (0x10, pointer as u8),
        List::Extended => assert_eq!(pointer & !3, 0x100),
        List::Trusted => [space[0x004], space[0x005]] = (pointer as u16).to_le_bytes(),
    }
}

/// Writes a header with an ID that is not 0 and with this pointer.
pub fn header(space: &mut [u8], list: List, at: usize, pointer: usize) {
    match list {
        List::Compatible => space[at..at + 2].copy_from_slice(&[0x09, pointer as u8]),
        List::Extended | List::Trusted => {
            let word = 0x0001_0023 | (pointer as u32) << 20;
            space[at..at + 4].copy_from_slice(&word.to_le_bytes());
        }
    }
}

/// A space whose list has these offsets, in this order; the last points to `last`.
pub fn chained(list: List, offsets: &[usize], last: usize) -> Vec<u8> {
    let mut space = vec![0; SPACE];
    start(&mut space, list, offsets[0]);
    for (place, &at) in offsets.iter().enumerate() {
        header(&mut space, list, at, offsets.get(place + 1).copied().unwrap_or(last));
    }
    space
}

/// Walks by `raw`, and from the same state by `walk`: both must agree. The room is then as it should be: the offsets,
/// if any, and the rest as lent.
fn asked(list: List, space: &[u8], room_length: usize, offsets: &[usize]) -> raw::Walked {
    let space = lent(space);
    let mut room = room(room_length);
    let mut other = room.clone();
    let numbers: Vec<Offset> = offsets.iter().map(|&at| at as Offset).collect();
    let answer = match list {
        List::Compatible => raw::walk_compatible(space.part(), room.part_mut()),
        List::Extended => raw::walk_extended(space.part(), room.part_mut()),
        List::Trusted => raw::walk_trusted(space.part(), room.part_mut()),
    };
    let safe = walk(list, space.part(), other.part_mut())
        .map(<[Offset]>::to_vec)
        .map_err(|refusal| (refusal.number(), refusal.place().unwrap_or(0)));
    assert_eq!(
        safe,
        if answer.number == 0 {
            Ok(numbers.clone())
        } else {
            Err((answer.number, answer.place))
        }
    );
    assert_eq!(answer.count, numbers.len());
    for mut lent_room in [room, other] {
        lent_room.expect(0, &numbers);
        lent_room.check("the room");
    }
    space.check("the space");
    answer
}

/// Gives the number of a walk that has no place to tell.
pub fn walked(list: List, space: &[u8], room_length: usize, offsets: &[usize]) -> u8 {
    let raw::Walked { number, place, .. } = asked(list, space, room_length, offsets);
    assert_eq!(place, 0);
    number
}

/// Gives the number and the place of a walk that lists nothing.
pub fn told(list: List, space: &[u8], room_length: usize) -> (u8, usize) {
    let raw::Walked { number, place, .. } = asked(list, space, room_length, &[]);
    (number, place.into())
}

/// The same, in a room of the list's maximum.
pub fn broken(list: List, space: &[u8]) -> (u8, usize) {
    told(list, space, list.maximum())
}
