//! The classes of demand 3's halves, after a look that the two runs agree in what they should. By request 9/13 "Under edition
//! 2 a packet with bit 7 set counts as ordinary in demand 3, and both its runs have the same edition."

use thawribbon::raw::{Description, Served};

use super::answers::{Answers, OF_SORTS, REFUSED, SORTS, answer, count, place, well_described};
use super::edition::{code_place, has_bit_7, is_trusted, set_place};
use super::group::Group;
use super::half_names::Differing;
use super::pair::Boards;
use super::tally::Tally;
use crate::generate::Half;

/// A packet that both runs were given, and what the model made of it.
pub struct HalfView<'call> {
    pub half: Half,
    pub descriptions: [Description; 2],
    pub packet: &'call [u8],
    pub served: [Served; 2],
    /// The written bytes of both replies.
    pub written: [&'call [u8]; 2],
    pub boards: Boards<'call>,
}

/// What the two runs have met before.
#[derive(Clone, Copy, Default)]
pub struct Met {
    /// Whether the register was changed in both runs since it was last shown.
    pub register_changed: bool,
    /// How many resets each run had.
    pub resets: [usize; 2],
    /// How many packets of its own each run had since the last one that both had.
    own_packets: [usize; 2],
    /// Whether one run, or both, had a packet with a trusted code and bit 7 set since the last success of both.
    trusted_with_bit_7: bool,
}

impl Met {
    /// Takes in a packet that one of the runs was given.
    pub fn own(&mut self, run: usize, packet: &[u8]) {
        self.own_packets[run] += 1;
        self.trusted_with_bit_7 |= has_trusted_code_and_bit_7(packet);
    }
}

fn has_trusted_code_and_bit_7(packet: &[u8]) -> bool {
    matches!(packet.first(), Some(0x9B | 0xDB))
}

/// What packets may be answered: ordinary ones, in edition 1 with bit 7 clear and set and in edition 2, each time the six
/// type codes and others; then trusted ones.
const SETS: [Answers; 8 * SORTS] = {
    let served = well_described(OF_SORTS);
    let refused = well_described([REFUSED; SORTS]);
    let mut sets = [0; 8 * SORTS];
    let mut place = 0;
    while place < 7 * SORTS {
        let (block, sort) = (place / SORTS, place % SORTS);
        let trusted = sort == 4 || sort == 5;
        sets[place] = match block {
            3 => refused[sort],
            0..=2 if !trusted => served[sort],
            4..=6 if trusted => served[sort],
            _ => 0,
        };
        place += 1;
    }
    sets
};

/// How many classes there are for what was answered. Those of the empty packet are the last four.
pub const HALF_ANSWERS: usize = count(&SETS) + 4;

/// The place of what a packet was answered.
fn answer_place(edition: u32, packet: &[u8], number: u8, written: &[u8]) -> usize {
    let Some(&first) = packet.first() else {
        return HALF_ANSWERS - 4 + 2 * (edition as usize - 1) + usize::from(number) - 2;
    };
    let kind = 4 * SORTS * usize::from(is_trusted(first, edition));
    let place = place(&SETS, kind + set_place(edition, first), answer(number, written));
    place.expect("what is answered is what a packet of its kind may be answered")
}

/// Looks that two runs agree in what they should: "ordinary bytes agree", and what is captured with them; "trusted bytes
/// agree". Where they do not, the run stops.
pub fn look_at_both(half: Half, boards: &Boards<'_>) {
    let agree = match half {
        Half::Ordinary => boards.ordinary[0] == boards.ordinary[1] && boards.captures[0] == boards.captures[1],
        Half::Trusted => boards.trusted[0] == boards.trusted[1],
    };
    assert!(agree, "two runs of demand 3 do not agree: {half:?}");
}

/// Counts a packet that both runs were given. Where their answers or the written reply bytes do not agree, the run stops.
pub fn count_shared(view: &HalfView<'_>, met: &mut Met, tally: &mut Tally) {
    let [first, second] = view.served;
    assert!(
        (first.number, first.length) == (second.number, second.length) && view.written[0] == view.written[1],
        "two runs of demand 3 do not answer alike: {:?}, {:02x?}, {first:x?}, {second:x?}",
        view.half,
        view.packet
    );
    look_at_both(view.half, &view.boards);
    let edition = view.descriptions[0].edition;
    tally.add(
        Group::HalfShared,
        answer_place(edition, view.packet, first.number, view.written[0]),
    );
    let succeeds = first.number == 0 && view.written[0][6] == 0;
    if succeeds {
        count_differing(view, met, tally);
        met.trusted_with_bit_7 = false;
    }
    met.trusted_with_bit_7 |= view.half == Half::Ordinary && has_trusted_code_and_bit_7(view.packet);
    met.own_packets = [0; 2];
}

/// Counts a packet that one of the runs was given.
pub fn count_own(edition: u32, packet: &[u8], served: Served, written: &[u8], tally: &mut Tally) {
    tally.add(Group::HalfOwn, answer_place(edition, packet, served.number, written));
}

/// Counts a success of both runs by how they differ, and by what they have met before.
fn count_differing(view: &HalfView<'_>, met: &mut Met, tally: &mut Tally) {
    let [first, second] = view.descriptions;
    let edition = first.edition as usize - 1;
    let mut add_if = |condition, differing| {
        let class = Differing::COUNT * edition + differing as usize;
        tally.add_if(condition, Group::HalfDiffering, class);
    };
    let differ = |[first, second]: [&[u8]; 2]| first != second;
    let own_of_one = met.own_packets[0] != met.own_packets[1];
    match view.half {
        Half::Ordinary => {
            let trusted_bytes = differ(view.boards.trusted);
            add_if(trusted_bytes, Differing::TrustedBytes);
            add_if(first.b != second.b, Differing::B);
            add_if(trusted_bytes && first.b == second.b, Differing::TrustedBytesNotB);
            let at_a = is_read_at(view.packet, first.a);
            add_if(at_a && trusted_bytes, Differing::ReadAtA);
            add_if(at_a && met.register_changed, Differing::ReadAtAOfAnotherRegister);
            met.register_changed &= !at_a;
            add_if(own_of_one, Differing::TrustedPackets);
            add_if(met.trusted_with_bit_7, Differing::TrustedCodeWithBit7);
            add_if(met.resets[0] > 0, Differing::AfterAReset);
        }
        Half::Trusted => {
            add_if(differ(view.boards.ordinary), Differing::OrdinaryBytes);
            add_if(first.a != second.a, Differing::A);
            add_if(first.b != second.b, Differing::BInTheSecondHalf);
            add_if(met.resets[0] != met.resets[1], Differing::Resets);
            add_if(own_of_one, Differing::OrdinaryPackets);
            let bit_7 = has_bit_7(view.packet[0]) || met.trusted_with_bit_7;
            add_if(bit_7, Differing::TrustedCodeWithBit7InTheSecondHalf);
        }
    }
}

/// Whether a packet that succeeds is an ordinary read at an offset.
fn is_read_at(packet: &[u8], offset: u32) -> bool {
    let asked = 256 * (u32::from(packet[10]) % 16) + 4 * (u32::from(packet[11]) / 4);
    code_place(packet[0]) == 0 && asked == offset
}

#[cfg(test)]
mod tests {
    use thawribbon::raw::{Capture, Description, Served};

    use super::{Boards, HALF_ANSWERS, Half, HalfView, Met, Tally, answer_place, count_shared};

    /// A reply of success, and one of UR.
    const REPLIES: [[u8; 7]; 2] = [[0; 7], [0x20; 7]];

    #[test]
    fn a_trusted_code_with_bit_7_is_ordinary_under_edition_2() {
        let refused = |edition, first| answer_place(edition, &[first], 3, &REPLIES[0]);
        let ordinary = |edition| refused(edition, 0x84);
        let trusted = |edition| refused(edition, 0x1B);
        assert!(refused(1, 0x9B) > trusted(1) && ordinary(1) < trusted(1));
        assert!(refused(2, 0x9B) > ordinary(2) && refused(2, 0x9B) < trusted(1));
    }

    #[test]
    fn the_empty_packet_comes_last() {
        let places = [(1, 2), (1, 3), (2, 2), (2, 3)].map(|(edition, number)| answer_place(edition, &[], number, &[]));
        assert!(places.into_iter().eq(HALF_ANSWERS - 4..HALF_ANSWERS));
    }

    #[test]
    #[should_panic(expected = "of its kind may be answered")]
    fn a_success_with_bit_7_under_edition_2_stops_the_run() {
        answer_place(2, &[0x9B], 0, &REPLIES[0]);
    }

    const SPACE: [u8; 8] = [0x3C; 8];
    const OTHER: [u8; 8] = [0x3D; 8];
    const SERVED: Served = Served {
        length: 7,
        number: 0,
        capture: Capture {
            captured: 0,
            bus: 0,
            device: 0,
        },
    };

    /// Counts a Type 1 read, or a trusted one, in two runs that agree but for a change.
    fn counted(half: Half, change: impl Fn(&mut HalfView<'_>)) {
        let description = Description {
            edition: 1,
            ..Description::default()
        };
        let mut view = HalfView {
            half,
            descriptions: [description; 2],
            packet: if half == Half::Ordinary {
                &[0x05; 12]
            } else {
                &[0x1B; 12]
            },
            served: [SERVED; 2],
            written: [&REPLIES[1]; 2],
            boards: Boards {
                ordinary: [&SPACE; 2],
                trusted: [&SPACE; 2],
                captures: [None; 2],
            },
        };
        change(&mut view);
        count_shared(&view, &mut Met::default(), &mut Tally::new());
    }

    #[test]
    fn two_runs_that_agree_in_what_they_should_are_counted() {
        counted(Half::Ordinary, |view| view.boards.trusted[0] = &OTHER);
        counted(Half::Trusted, |view| {
            view.boards.ordinary[1] = &OTHER;
            view.boards.captures[1] = Some((0, 0));
        });
    }

    #[test]
    #[should_panic(expected = "do not answer alike")]
    fn another_reply_stops_the_run() {
        counted(Half::Ordinary, |view| view.written[1] = &REPLIES[0]);
    }

    #[test]
    #[should_panic(expected = "do not answer alike")]
    fn another_number_stops_the_run() {
        counted(Half::Trusted, |view| view.served[0].number = 4);
    }

    #[test]
    #[should_panic(expected = "do not agree")]
    fn another_ordinary_byte_stops_the_run() {
        counted(Half::Ordinary, |view| view.boards.ordinary[1] = &OTHER);
    }

    #[test]
    #[should_panic(expected = "do not agree")]
    fn another_trusted_byte_stops_the_run() {
        counted(Half::Trusted, |view| view.boards.trusted[1] = &OTHER);
    }
}
