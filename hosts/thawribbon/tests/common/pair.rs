//! A board of two functions, a packet and a reply, each buffer with guards.

use super::{Lent, SPACE, is_completion, lent, option};
use thawribbon::{Capture, EDITION_1, Edition, Function, NotDone, Pair, Side, Space, Status, raw};

/// Which of the two functions, by its place in [`PairBench::sides`].
pub const PRIMARY: usize = 0;
pub const ALTERNATE: usize = 1;
pub const SIDES: [usize; 2] = [PRIMARY, ALTERNATE];

/// The parts that a function lends, by their places in [`BenchSide::parts`].
pub const ORDINARY: usize = 0;
pub const ORDINARY_RULES: usize = 1;
pub const TRUSTED: usize = 3;
pub const TRUSTED_RULES: usize = 4;

/// What the functions have captured in [`PairBench::captured`].
pub const CAPTURED: [Capture; 2] = [Capture { bus: 0x05, device: 3 }, Capture { bus: 0x06, device: 9 }];

/// What the functions' spaces hold at 004h.
pub const ORDINARY_AT_004: [[u8; 4]; 2] = [[0x51; 4], [0x93; 4]];
pub const TRUSTED_AT_004: [[u8; 4]; 2] = [[0x08, 0, 0, 0], [0x18, 0, 0, 0]];

/// What a packet writes.
pub const LANDED: [u8; 4] = [0x11, 0x22, 0x33, 0x44];

/// One of the functions: its spaces with their rules and marks in the order in which they are lent.
#[derive(Clone)]
pub struct BenchSide {
    pub description: raw::Function,
    pub kept: raw::Capture,
    pub parts: [Lent<u8>; 6],
}

impl BenchSide {
    /// Rules FFh at 004h in both spaces, no marks, and these bytes.
    fn fresh(description: raw::Function, [ordinary, trusted]: [u8; 2], trusted_at_004: [u8; 4]) -> Self {
        let mut side = BenchSide {
            description,
            kept: raw::Capture::default(),
            parts: [ordinary, 0, 0, trusted, 0, 0].map(|byte| lent(&[byte; SPACE])),
        };
        side.parts[ORDINARY_RULES].set(0x004, &[0xFF; 4]);
        side.parts[TRUSTED_RULES].set(0x004, &[0xFF; 4]);
        side.parts[TRUSTED].set(0x004, &trusted_at_004);
        side
    }

    /// The function as Rust says it, if it can.
    fn safe(&mut self) -> Option<Side<'_>> {
        let [
            ordinary,
            ordinary_rules,
            ordinary_marks,
            trusted,
            trusted_rules,
            trusted_marks,
        ] = &mut self.parts;
        Some(Side {
            description: Function {
                function: self.description.function,
                a: self.description.a.try_into().ok()?,
                b: self.description.b.try_into().ok()?,
            },
            capture: option(self.kept),
            ordinary: Space {
                bytes: ordinary.part_mut(),
                rules: ordinary_rules.part(),
                marks: ordinary_marks.part(),
            },
            trusted: Space {
                bytes: trusted.part_mut(),
                rules: trusted_rules.part(),
                marks: trusted_marks.part(),
            },
        })
    }

    fn check(&self, name: &str) {
        for (place, part) in self.parts.iter().enumerate() {
            part.check(&format!("part {place} of {name}"));
        }
    }
}

/// The function that is not this one.
pub fn other(side: usize) -> usize {
    1 - side
}

/// A capture as it is handed over.
pub fn linked(capture: Option<Capture>) -> raw::Capture {
    capture.map_or(raw::Capture::default(), |Capture { bus, device }| raw::Capture {
        captured: 1,
        bus,
        device,
    })
}

/// A packet of a type for a bus, a device and a function, at 004h. A write has [`LANDED`] as its data.
pub fn packet(code: u8, Capture { bus, device }: Capture, function: u8) -> Vec<u8> {
    let mut packet = vec![code, 0, 0, 1, 1, 0, 7, 0x0F, bus, device * 8 + function, 0, 4];
    if code & 0x40 != 0 {
        packet.extend(LANDED);
    }
    packet
}

/// A board of two functions.
#[derive(Clone)]
pub struct PairBench {
    pub edition: u32,
    pub sides: [BenchSide; 2],
    pub packet: Lent<u8>,
    pub reply: Lent<u8>,
}

impl PairBench {
    /// Functions 0 and 1 of edition 1, with A and B at 104h and 00Ch, 208h and 010h. All bytes tell the four spaces apart.
    pub fn fresh() -> Self {
        let function = |function, a, b| raw::Function { function, a, b };
        PairBench {
            edition: EDITION_1,
            sides: [
                BenchSide::fresh(function(0, 0x104, 0x00C), [0x51, 0x72], TRUSTED_AT_004[PRIMARY]),
                BenchSide::fresh(function(1, 0x208, 0x010), [0x93, 0xB4], TRUSTED_AT_004[ALTERNATE]),
            ],
            packet: lent(&[]),
            reply: lent(&[0xEE; 20]),
        }
    }

    /// The same after each captured.
    pub fn captured() -> Self {
        let mut bench = PairBench::fresh();
        for side in SIDES {
            bench.sides[side].kept = linked(Some(CAPTURED[side]));
        }
        bench
    }

    /// What both have captured, as it is handed over.
    pub fn kept(&self) -> raw::Captures {
        raw::Captures {
            primary: self.sides[PRIMARY].kept,
            alternate: self.sides[ALTERNATE].kept,
        }
    }

    /// The packet is refused with this number, and nothing changes.
    pub fn refuses(&mut self, packet: &[u8], number: u8) {
        self.packet = lent(packet);
        let expected = raw::PairServed {
            length: 0,
            number,
            kept: self.kept(),
        };
        assert_eq!(self.serve(), expected, "{packet:02X?}");
    }

    /// The packet is an Unsupported Request, by this function.
    pub fn is_unsupported(&mut self, packet: &[u8], by: usize) {
        self.answers(packet, by, option(self.sides[by].kept), 0x20, None);
    }

    /// The packet is a read by this function, which gives these bytes.
    pub fn reads(&mut self, packet: &[u8], by: usize, data: [u8; 4]) {
        self.answers(packet, by, option(self.sides[by].kept), 0x00, Some(data));
    }

    /// The packet is a write by this function, which has this capture then; [`LANDED`] is at 004h of a part.
    pub fn writes(&mut self, packet: &[u8], by: usize, capture: Capture, part: usize) {
        self.sides[by].parts[part].expect(0x004, &LANDED);
        self.answers(packet, by, Some(capture), 0x00, None);
    }

    /// The packet is served by this function with this status and data, and it has this capture then.
    fn answers(&mut self, packet: &[u8], by: usize, after: Option<Capture>, status: u8, data: Option<[u8; 4]>) {
        let [bus, device] = after.map_or([0; 2], |Capture { bus, device }| [bus, device]);
        let second = device * 8 + self.sides[by].description.function;
        let mut completion = vec![
            0x0A, 0, 0, 0, bus, second, status, 4, packet[4], packet[5], packet[6], 0,
        ];
        if let Some(data) = data {
            (completion[0], completion[3]) = (0x4A, 1);
            completion.extend(data);
        }
        self.packet = lent(packet);
        self.reply.expect(0, &completion);
        let answer = self.serve();
        self.sides[by].kept = linked(after);
        self.sides[other(by)].kept = linked(option(self.sides[other(by)].kept));
        let expected = raw::PairServed {
            length: completion.len(),
            number: 0,
            kept: self.kept(),
        };
        assert_eq!(answer, expected, "{packet:02X?}");
    }

    /// Serves by `raw::serve_pair`, and from the same state by `Pair::serve`: both must agree, and leave every buffer as
    /// expected.
    fn serve(&mut self) -> raw::PairServed {
        let (mut again, kept) = (self.clone(), self.kept());
        let [primary, alternate] = &mut self.sides;
        let [p0, p1, p2, p3, p4, p5] = &mut primary.parts;
        let [a0, a1, a2, a3, a4, a5] = &mut alternate.parts;
        let served = raw::serve_pair(
            self.edition,
            primary.description,
            alternate.description,
            kept,
            p0.part_mut(),
            p1.part(),
            p2.part(),
            p3.part_mut(),
            p4.part(),
            p5.part(),
            a0.part_mut(),
            a1.part(),
            a2.part(),
            a3.part_mut(),
            a4.part(),
            a5.part(),
            self.packet.part(),
            self.reply.part_mut(),
        );
        self.check();
        // A pair has a reply of its own, so it is never refused with 2.
        if served.number != 2 {
            again.serves_alike(served, &self.reply.part()[..served.length]);
        }
        served
    }

    /// `Pair::serve` does what `raw::serve_pair` has done, where Rust can say it: only C and `raw` can name a place that is no
    /// `Offset`, and a number that is no edition.
    fn serves_alike(&mut self, served: raw::PairServed, reply: &[u8]) {
        let Ok(edition) = Edition::try_from(self.edition) else {
            return;
        };
        let [primary, alternate] = &mut self.sides;
        let (Some(primary), Some(alternate)) = (primary.safe(), alternate.safe()) else {
            return;
        };
        let mut pair = Pair {
            edition,
            primary,
            alternate,
        };
        let answer = pair.serve(self.packet.part());
        assert_eq!(pair.primary.capture, option(served.kept.primary));
        assert_eq!(pair.alternate.capture, option(served.kept.alternate));
        match answer {
            Ok(completion) => is_completion(&completion, Status::Successful, reply),
            Err(NotDone::Unsupported(completion)) => is_completion(&completion, Status::Unsupported, reply),
            Err(NotDone::Refused(refusal)) => assert_eq!((refusal.number(), 0), (served.number, reply.len())),
        }
        self.reply = lent(&[]); // it was not lent
        self.check();
    }

    fn check(&self) {
        self.sides[PRIMARY].check("the primary");
        self.sides[ALTERNATE].check("the alternate");
        self.packet.check("the packet");
        self.reply.check("the reply");
    }
}
