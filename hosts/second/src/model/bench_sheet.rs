//! Document 01's bench sheet, line by line, on the model. "Function 0; rules FFh at 004h in both spaces."

use super::merge::merged;
use super::{Alternate, Description, Dvsec, List, Served, Walked, dual_bdf, dvsec, dvsec_body, serve, walk};

const P1_PACKET: [u8; 12] = [0x1B, 0, 0, 1, 1, 0, 8, 0x0F, 5, 0x18, 0, 4];
const P2_PACKET: [u8; 16] = [0x44, 0, 0, 1, 1, 0, 7, 0x0F, 5, 0x18, 0, 4, 0x11, 0x22, 0x33, 0x44];
const P9_RECORD: [u8; 12] = [9, 0, 0x0C, 0, 0xC0, 0x1E, 0xC0, 0, 2, 0, 2, 3];
const P11_RECORD: [u8; 10] = [0x23, 0, 1, 0, 0xC0, 0x1E, 0, 1, 2, 0];
/// What a reply is filled with before it is lent.
const LENT: u8 = 0xEE;

/// The board of the bench sheet, with its reply.
struct Bench {
    description: Description,
    capture: Option<(u8, u8)>,
    ordinary: [u8; 4096],
    trusted: [u8; 4096],
    rules: [u8; 4096],
    /// No bit of the bench sheet's board is cleared by writing 1.
    marks: [u8; 4096],
    reply: [u8; 24],
}

impl Bench {
    fn fresh() -> Self {
        let mut rules = [0; 4096];
        rules[4..8].fill(0xFF);
        let description = Description {
            function: 0,
            a: 0x104,
            b: 0x00C,
            edition: 1,
        };
        Self {
            description,
            capture: None,
            ordinary: [0; 4096],
            trusted: [0; 4096],
            rules,
            marks: [0; 4096],
            reply: [LENT; 24],
        }
    }

    fn serve(&mut self, packet: &[u8]) -> Served {
        self.serve_into(packet, 24)
    }

    fn serve_into(&mut self, packet: &[u8], room: usize) -> Served {
        let served = serve(
            self.description,
            self.capture,
            &mut self.ordinary,
            &self.rules,
            &self.marks,
            &mut self.trusted,
            &self.rules,
            &self.marks,
            packet,
            &mut self.reply[..room],
        );
        self.capture = served.capture;
        served
    }

    fn written(&self, served: Served) -> &[u8] {
        assert!(self.reply[served.length..].iter().all(|&byte| byte == LENT));
        &self.reply[..served.length]
    }
}

/// A space that is 0 but for some bytes from an offset on.
fn space_with(at: usize, bytes: &[u8]) -> [u8; 4096] {
    let mut space = [0; 4096];
    space[at..at + bytes.len()].copy_from_slice(bytes);
    space
}

#[test]
fn p1_trusted_read_before_any_capture() {
    let mut bench = Bench::fresh();
    let served = bench.serve(&P1_PACKET);
    assert_eq!(
        served,
        Served {
            number: 0,
            length: 12,
            capture: None
        }
    );
    assert_eq!(bench.written(served), [0x0A, 0, 0, 0, 0, 0, 0x20, 4, 1, 0, 8, 0]);
}

#[test]
fn p2_ordinary_write_captures_and_stores() {
    let mut bench = Bench::fresh();
    let served = bench.serve(&P2_PACKET);
    assert_eq!(
        served,
        Served {
            number: 0,
            length: 12,
            capture: Some((5, 3))
        }
    );
    assert_eq!(bench.written(served), [0x0A, 0, 0, 0, 5, 0x18, 0, 4, 1, 0, 7, 0]);
    assert_eq!(bench.ordinary, space_with(4, &[0x11, 0x22, 0x33, 0x44]));
    assert_eq!(bench.trusted, [0; 4096]);
}

#[test]
fn p3_trusted_read_after_the_capture() {
    let mut bench = Bench::fresh();
    bench.serve(&P2_PACKET);
    bench.reply.fill(LENT);
    bench.trusted[4] = 8;
    let served = bench.serve(&P1_PACKET);
    assert_eq!(
        served,
        Served {
            number: 0,
            length: 16,
            capture: Some((5, 3))
        }
    );
    assert_eq!(
        bench.written(served),
        [0x4A, 0, 0, 1, 5, 0x18, 0, 4, 1, 0, 8, 0, 8, 0, 0, 0]
    );
}

#[test]
fn p4_to_p7_refusals_change_nothing() {
    let mut zero_type = [0; 12];
    zero_type[3] = 1;
    let mut last_enables = P1_PACKET;
    last_enables[7] = 0x1F;
    let refused: [(&[u8], u8); 4] = [(&[], 3), (&P2_PACKET[..15], 5), (&zero_type, 4), (&last_enables, 6)];
    for (packet, number) in refused {
        let mut bench = Bench::fresh();
        assert_eq!(
            bench.serve(packet),
            Served {
                number,
                length: 0,
                capture: None
            }
        );
        assert_eq!(
            (bench.ordinary, bench.trusted, bench.reply),
            ([0; 4096], [0; 4096], [LENT; 24])
        );
    }
}

#[test]
fn p8_merge_of_one_byte() {
    assert_eq!(merged(0x0F, 0xF0, 0xA5, 0x1), 0xAF);
    assert_eq!(merged(0x0F, 0xF0, 0xA5, 0xE), 0x0F);
}

#[test]
fn p9_and_p10_dual_bdf() {
    let mut space = space_with(0x040, &P9_RECORD);
    assert_eq!(
        dual_bdf(&space, 0x040),
        Alternate {
            number: 0,
            function: 1,
            device: 3
        }
    );
    space[0x04A] = 3;
    assert_eq!(
        dual_bdf(&space, 0x040),
        Alternate {
            number: 10,
            function: 0,
            device: 0
        }
    );
}

#[test]
fn p11_dvsec_and_its_body() {
    let space = space_with(0x100, &P11_RECORD);
    let record = Dvsec {
        number: 0,
        vendor: 0x1EC0,
        revision: 0,
        id: 2,
        length: 0x10,
    };
    assert_eq!(dvsec(&space, 0x100), record);
    assert_eq!(
        dvsec_body(&space, 0x100).as_ptr_range(),
        space[0x10A..0x110].as_ptr_range()
    );
}

/// The answer of a walk that is refused.
pub(super) const fn refused(number: u8, place: u16) -> Walked {
    Walked {
        number,
        count: 0,
        place,
    }
}

/// As request 3/13 has it: "`extended 12 100 refused` for P12".
#[test]
fn p12_header_that_points_to_itself() {
    let space = space_with(0x100, &[0x23, 0, 1, 0x10]);
    let mut room = [0xAAAA; 960];
    assert_eq!(walk(List::Extended, &space, &mut room), refused(12, 0x100));
    assert_eq!(room, [0xAAAA; 960]);
}

/// Sets a list's start where it is the list's own to set, and makes it count as not empty: the extended list by an ID,
/// so that the word at 100h is not zero whatever pointer it gets.
pub(super) fn set_start(list: List, space: &mut [u8; 4096], start: u16) {
    match list {
        List::Compatible => (space[0x06], space[0x34]) = (0x10, start as u8),
        List::Extended => space[0x100] = 1,
        List::Trusted => space[0x004..0x006].copy_from_slice(&start.to_le_bytes()),
    }
}

pub(super) fn set_next(list: List, space: &mut [u8; 4096], at: usize, next: u16) {
    match list {
        List::Compatible => space[at + 1] = next as u8,
        _ => space[at + 2..at + 4].copy_from_slice(&(next << 4).to_le_bytes()),
    }
}

/// The lists with their floors and maxima.
pub(super) const LISTS: [(List, u16, usize); 3] = [
    (List::Compatible, 0x040, 48),
    (List::Extended, 0x100, 960),
    (List::Trusted, 0x008, 1022),
];

#[test]
fn each_maximum_and_a_room_too_small_by_one() {
    for (list, floor, maximum) in LISTS {
        let mut space = [0; 4096];
        let offsets: Vec<u16> = (0..maximum as u16).map(|place| floor + 4 * place).collect();
        set_start(list, &mut space, floor);
        for pair in offsets.windows(2) {
            set_next(list, &mut space, usize::from(pair[0]), pair[1]);
        }
        let mut room = vec![0xAAAA; maximum + 1];
        assert_eq!(walk(list, &space, &mut room[..maximum - 1]), refused(2, 0));
        assert!(room.iter().all(|&offset| offset == 0xAAAA));
        assert_eq!(
            walk(list, &space, &mut room),
            Walked {
                number: 0,
                count: maximum,
                place: 0
            }
        );
        assert_eq!((&room[..maximum], room[maximum]), (&offsets[..], 0xAAAA));
    }
}

#[test]
fn a_pointer_four_below_each_floor() {
    for (list, floor, maximum) in LISTS {
        let mut space = [0; 4096];
        set_start(list, &mut space, floor);
        set_next(list, &mut space, usize::from(floor), floor - 4);
        let mut room = vec![0xAAAA; maximum];
        assert_eq!(walk(list, &space, &mut room), refused(11, floor));
        assert!(room.iter().all(|&offset| offset == 0xAAAA));
    }
}

#[test]
fn a_loop_that_never_comes_back_to_the_start() {
    let mut space = space_with(0x100, &[0x23, 0]);
    for (at, next) in [(0x100, 0x140), (0x140, 0x180), (0x180, 0x140)] {
        set_next(List::Extended, &mut space, at, next);
    }
    assert_eq!(walk(List::Extended, &space, &mut [0; 960]), refused(12, 0x180));
}

#[test]
fn replies_of_15_and_16_bytes() {
    let mut bench = Bench::fresh();
    assert_eq!(
        bench.serve_into(&P2_PACKET, 15),
        Served {
            number: 2,
            length: 0,
            capture: None
        }
    );
    assert_eq!((bench.ordinary, bench.reply), ([0; 4096], [LENT; 24]));
    assert_eq!(bench.serve_into(&P2_PACKET, 16).number, 0);
    let served = bench.serve_into(&P1_PACKET, 16);
    assert_eq!((served.number, served.length), (0, 16));
}

#[test]
fn a_and_b_at_both_ends() {
    let numbers = |a, b| {
        let mut bench = Bench::fresh();
        bench.description = Description {
            a,
            b,
            ..bench.description
        };
        bench.serve(&P1_PACKET).number
    };
    assert_eq!([(0x104, 0x00C), (0xFFC, 0xFFC)].map(|(a, b)| numbers(a, b)), [0, 0]);
    let outside = [
        (0x100, 0x00C),
        (0x105, 0x00C),
        (0x1000, 0x00C),
        (0x104, 0x008),
        (0x104, 0x00D),
        (0x104, 0x1000),
    ];
    assert_eq!(outside.map(|(a, b)| numbers(a, b)), [1; 6]);
}

#[test]
fn the_word_at_a_shows_the_trusted_bytes_at_b() {
    for (a, b) in [(0x104_u16, 0x00C_u16), (0xFFC, 0xFFC), (0x104, 0xFFC), (0xFFC, 0x00C)] {
        let mut bench = Bench::fresh();
        bench.description = Description {
            a: a.into(),
            b: b.into(),
            ..bench.description
        };
        bench.rules.fill(0xFF);
        bench.ordinary[usize::from(a)..][..4].fill(0x55);
        bench.trusted[usize::from(b)..][..4].copy_from_slice(&[1, 2, 3, 4]);
        let [high, low] = a.to_be_bytes();
        let stored = bench.ordinary;
        bench.serve(&[0x44, 0, 0, 1, 1, 0, 7, 0x0F, 5, 0x18, high, low, 9, 9, 9, 9]);
        assert_eq!((bench.ordinary, bench.capture), (stored, Some((5, 3))));
        for enables in 0..16 {
            let served = bench.serve(&[0x04, 0, 0, 1, 1, 0, 7, enables, 5, 0x18, high, low]);
            assert_eq!(bench.written(served)[12..], [1, 2, 3, 4]);
        }
    }
}

#[test]
fn dvsec_ends() {
    for (at, length, number) in [
        (0xFF4_usize, 0x0C_u16, 0),
        (0xFF4, 0x0D, 9),
        (0xFF4, 0x0A, 0),
        (0xFF4, 0x09, 9),
    ] {
        let mut space = space_with(at, &[0x23, 0, 1, 0]);
        space[at + 6..at + 8].copy_from_slice(&(length << 4).to_le_bytes());
        assert_eq!(dvsec(&space, at).number, number);
        let expected = if number == 0 { usize::from(length) - 0x0A } else { 0 };
        assert_eq!(dvsec_body(&space, at).len(), expected);
    }
    assert_eq!(dvsec(&space_with(0xFF8, &[0x23, 0, 1, 0]), 0xFF8).number, 9);
    assert_eq!(dvsec(&space_with(0xFFC, &[0x23, 0, 1, 0]), 0xFFC).number, 9);
    assert_eq!(dvsec(&[0; 4096], 0x1000).number, 1);
    assert_eq!(dvsec(&[0; 4096], usize::MAX - 3).number, 1);
    assert_eq!(dvsec(&[0; 4095], 0x101).number, 1);
}
