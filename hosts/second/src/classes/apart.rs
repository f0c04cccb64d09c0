//! The classes of two runs of a board of two functions, after a look that both agree in what they should. Request 11/13:
//! "packets for one function, ordinary or trusted, changed at will in one of two runs, change no answer, no written reply
//! byte and no space of the other", and demand 3 "holds for each function over the packets for it".

use thawribbon::raw::Description;

use super::apart_names::Differing;
use super::duo::named;
use super::edition::{code_place, has_bit_7};
use super::group::Group;
use super::half::look_at_both as look_at_half;
use super::packet_causes::packet_causes;
use super::pair::Boards;
use super::tally::Tally;
use crate::generate::{Apart, Half, Packet, Shared};
use crate::twin::word;

/// A packet that both runs were given, and what the model made of it.
pub struct ApartView<'call> {
    pub apart: Apart,
    /// In each run, of the primary and of the alternate.
    pub descriptions: [[Description; 2]; 2],
    pub packet: &'call Packet,
    /// In each run the number and the length.
    pub answers: [(u8, usize); 2],
    /// The written bytes of both replies.
    pub written: [&'call [u8]; 2],
    /// What the function has now that the runs share packets of, and what the other one has.
    pub boards: Boards<'call>,
    pub others: Boards<'call>,
}

/// What the two runs have met before.
#[derive(Clone, Copy, Default)]
pub struct ApartMet {
    /// How many resets each run had.
    pub resets: [usize; 2],
    /// How many packets of its own each run had since the last success of both: for the function, for the other, for
    /// neither.
    own_packets: [[usize; 3]; 2],
    /// How many of those for the other captured, and how many were trusted writes that succeeded.
    others_captures: [usize; 2],
    others_trusted_writes: [usize; 2],
}

/// Whom a packet is for: 0 the primary, 1 the alternate, 2 neither. One with a fault of 3 to 6 and one of Type 1 are for
/// neither.
pub fn whom(packet: &Packet, edition: u32, numbers: [u8; 2]) -> usize {
    let faulty = packet_causes(packet, edition == 2).contains(&true);
    if faulty || matches!(code_place(packet.bytes[0]), 2 | 3) {
        return 2;
    }
    named(packet.bytes[9], numbers)
}

/// Looks that two runs agree in what they should of the function that they share packets of. Where they do not, the run
/// stops.
pub fn look_at_both(apart: Apart, boards: &Boards<'_>) {
    match apart.shared {
        Shared::All => assert!(
            boards.are_alike(),
            "packets for one function change something of the other: {apart:?}"
        ),
        Shared::Half(half) => look_at_half(half, boards),
    }
}

/// Counts a packet that both runs were given. Where their answers or the written reply bytes do not agree, the run stops.
///
/// "Replies with the primary's ID to those packets", those for neither, "are compared only when the primary is the
/// unchanged function." Where it is the changed one, all but the two bytes of the ID is.
pub fn count_shared(view: &ApartView<'_>, met: &mut ApartMet, tally: &mut Tally) {
    let edition = view.descriptions[0][0].edition;
    let [whom, second] = view.descriptions.map(|both| {
        let numbers = both.map(|description| description.function);
        whom(view.packet, edition, numbers)
    });
    assert!(
        whom == second && whom != 1 - view.apart.side,
        "two runs do not share what they should: {:?}, {:02x?}",
        view.apart,
        view.packet.as_slice()
    );
    let is_neithers = whom == 2;
    let same_reply = if is_neithers && view.apart.side == 1 {
        let [first, second] = view.written.map(|written| without_id(written));
        first == second
    } else {
        view.written[0] == view.written[1]
    };
    assert!(
        view.answers[0] == view.answers[1] && same_reply,
        "two runs do not answer alike: {:?}, {:02x?}, {:?}",
        view.apart,
        view.packet.as_slice(),
        view.answers
    );
    look_at_both(view.apart, &view.boards);
    if is_neithers {
        count_neithers(view, edition, tally);
    } else {
        count_shareds(view, edition, tally);
        let succeeds = view.answers[0].0 == 0 && view.written[0][6] == 0;
        if succeeds {
            count_differing(view, met, tally);
            *met = ApartMet {
                resets: met.resets,
                ..ApartMet::default()
            };
        }
    }
}

/// A written reply without the two bytes of the completer ID.
fn without_id(written: &[u8]) -> Option<[&[u8]; 2]> {
    (!written.is_empty()).then(|| [&written[..4], &written[6..]])
}

/// Counts a packet for the function that the runs share packets of: by its type code and by success and UR, which a read of
/// Type 0 does not get, or as 2. Where all packets are shared, edition 1 has bit 7 clear and set. A half of demand 3 has two
/// of the type codes.
fn count_shareds(view: &ApartView<'_>, edition: u32, tally: &mut Tally) {
    let first = view.packet.bytes[0];
    let (second_edition, bit_7) = (edition == 2, edition == 1 && has_bit_7(first));
    let place = match (view.answers[0].0, code_place(first)) {
        (2, _) => None,
        (_, 0) => Some(0),
        (_, code) => Some([0, 1, 1, 1, 3, 5][code] + usize::from(view.written[0][6] == 0x20)),
    };
    let class = match view.apart.shared {
        Shared::All => {
            let form = if second_edition { 2 } else { usize::from(bit_7) };
            8 * (3 * view.apart.side + form) + place.unwrap_or(7)
        }
        Shared::Half(half) => {
            let form = usize::from(second_edition);
            48 + 9 * (2 * view.apart.side + form) + place.unwrap_or(7 + half as usize)
        }
    };
    tally.add(Group::ApartShared, class);
}

/// Counts a packet for neither: UR of Type 0, of a trusted one, and of Type 1 by whom it names; then 2 to 6.
fn count_neithers(view: &ApartView<'_>, edition: u32, tally: &mut Tally) {
    let place = match view.answers[0].0 {
        0 => match code_place(view.packet.bytes[0]) {
            0 | 1 => 0,
            4 | 5 => 1,
            _ => {
                let numbers = view.descriptions[0].map(|description| description.function);
                2 + named(view.packet.bytes[9], numbers)
            }
        },
        number => 3 + usize::from(number),
    };
    let first = 10 * (2 * view.apart.side + edition as usize - 1);
    tally.add(Group::ApartNeither, first + place);
}

/// A packet that one of the runs was given.
pub struct OwnView<'call> {
    pub apart: Apart,
    /// Which of the runs.
    pub run: usize,
    /// Of the primary and of the alternate.
    pub descriptions: [Description; 2],
    pub packet: &'call Packet,
    pub number: u8,
    pub written: &'call [u8],
}

/// Counts a packet that one of the runs was given: whom it is for, with success and UR, or that it is refused.
pub fn count_own(view: &OwnView<'_>, met: &mut ApartMet, tally: &mut Tally) {
    let edition = view.descriptions[0].edition;
    let numbers = view.descriptions.map(|description| description.function);
    let whom = match whom(view.packet, edition, numbers) {
        2 => 2,
        side => usize::from(side != view.apart.side),
    };
    let succeeds = view.number == 0 && view.written[6] == 0;
    let place = match (view.number, whom) {
        // What is for neither is no success.
        (0, 2) => 4,
        (0, _) => 2 * whom + usize::from(!succeeds),
        _ => 5,
    };
    let place = match view.apart.shared {
        Shared::All => {
            assert_eq!(whom, 1, "only packets for the other function are a run's own");
            [0, 0, 0, 1, 0, 2][place]
        }
        Shared::Half(half) => 3 + 6 * half as usize + place,
    };
    tally.add(Group::ApartOwn, 15 * view.apart.side + place);
    met.own_packets[view.run][whom] += 1;
    let code = view.packet.bytes[0] & 0x7F;
    met.others_captures[view.run] += usize::from(whom == 1 && succeeds && code == 0x44);
    met.others_trusted_writes[view.run] += usize::from(whom == 1 && succeeds && code == 0x5B);
}

/// Counts a success of both runs by how they differ, and by what they have met before.
fn count_differing(view: &ApartView<'_>, met: &ApartMet, tally: &mut Tally) {
    let side = view.apart.side;
    let [own, others] = [side, 1 - side].map(|side| view.descriptions.map(|both| both[side]));
    let mut add_if = |condition, differing| {
        tally.add_if(
            condition,
            Group::ApartDiffering,
            Differing::COUNT * side + differing as usize,
        );
    };
    let differ = |[first, second]: [&[u8]; 2]| first != second;
    let in_one = |[first, second]: [usize; 2]| (first > 0) != (second > 0);
    let packets = |whom: usize| met.own_packets.map(|own| own[whom]);
    let asked = 256 * (u32::from(view.packet.bytes[10]) % 16) + 4 * (u32::from(view.packet.bytes[11]) / 4);
    let code = view.packet.bytes[0] & 0x7F;
    let reads_at_a = code == 0x04 && asked == own[0].a;
    let trusted = matches!(code, 0x1B | 0x5B);
    let others_ordinary = differ(view.others.ordinary);
    let others_trusted = differ(view.others.trusted);
    let [first, second] = view.others.captures;
    match view.apart.shared {
        Shared::All => {
            add_if(others_ordinary, Differing::OthersOrdinaryBytes);
            add_if(others_trusted, Differing::OthersTrustedBytes);
            let another = first.is_some() && second.is_some() && first != second;
            add_if(another, Differing::OthersCapture);
            add_if(first.is_some() != second.is_some(), Differing::OthersCaptureInOneRun);
            add_if(others[0].a != others[1].a, Differing::OthersA);
            add_if(others[0].b != others[1].b, Differing::OthersB);
            add_if(others[0].function != others[1].function, Differing::OthersNumber);
            add_if(in_one(packets(1)), Differing::OthersPackets);
            add_if(in_one(met.others_captures), Differing::OthersCapturingWrite);
            add_if(in_one(met.others_trusted_writes), Differing::OthersTrustedWrite);
            let [one, two] = [0, 1].map(|run: usize| word(view.others.trusted[run], others[run].b as usize));
            add_if(reads_at_a && one != two, Differing::ReadAtAWithAnotherRegister);
            add_if(trusted && first != second, Differing::TrustedWithAnotherCapture);
            add_if(met.resets[0] > 0, Differing::AfterAReset);
        }
        Shared::Half(Half::Ordinary) => {
            let trusted_bytes = differ(view.boards.trusted);
            add_if(trusted_bytes, Differing::TrustedBytes);
            add_if(own[0].b != own[1].b, Differing::B);
            add_if(reads_at_a && trusted_bytes, Differing::ReadAtA);
            add_if(in_one(packets(0)), Differing::TrustedPackets);
            add_if(others_ordinary && others_trusted, Differing::OthersSpaces);
            add_if(in_one(packets(1)), Differing::OthersPacketsInTheFirstHalf);
            add_if(in_one(packets(2)), Differing::NeithersPackets);
        }
        Shared::Half(Half::Trusted) => {
            add_if(differ(view.boards.ordinary), Differing::OrdinaryBytes);
            add_if(own[0].a != own[1].a, Differing::A);
            add_if(own[0].b != own[1].b, Differing::BInTheSecondHalf);
            add_if(met.resets[0] != met.resets[1], Differing::Resets);
            add_if(in_one(packets(0)), Differing::OrdinaryPackets);
            add_if(
                others_ordinary && others_trusted,
                Differing::OthersSpacesInTheSecondHalf,
            );
            add_if(in_one(packets(1)), Differing::OthersPacketsInTheSecondHalf);
        }
    }
}

#[cfg(test)]
mod tests {
    use thawribbon::raw::Description;

    use super::{
        Apart, ApartMet, ApartView, Boards, Half, OwnView, Packet, Shared, Tally, count_own, count_shared, whom,
    };

    const SPACE: [u8; 4096] = [0x3C; 4096];
    const OTHER: [u8; 4096] = [0x3D; 4096];

    /// A read of a type code that names a function.
    fn read(code: u8, function: u8) -> Packet {
        let mut bytes = [0; 24];
        bytes[..12].copy_from_slice(&[code, 0, 0, 1, 1, 0, 7, 0x0F, 5, 0x18 | function, 0, 0x10]);
        Packet { bytes, length: 12 }
    }

    /// A primary with number 2 and an alternate with number 6.
    fn descriptions() -> [Description; 2] {
        [2, 6].map(|function| Description {
            function,
            a: 0x104,
            b: 0x00C,
            edition: 1,
        })
    }

    /// A reply of UR with a completer's second byte.
    const fn declined(completer: u8) -> [u8; 12] {
        [0x0A, 0, 0, 0, 5, completer, 0x20, 4, 1, 0, 7, 0]
    }

    /// Counts a packet of two runs that agree but for a change.
    fn counted(apart: Apart, packet: &Packet, change: impl Fn(&mut ApartView<'_>)) {
        counted_with(apart, packet, &declined(0x1A), change);
    }

    /// The same where the second run has this reply.
    fn counted_with(apart: Apart, packet: &Packet, second: &[u8; 12], change: impl Fn(&mut ApartView<'_>)) {
        let reply = declined(0x1A);
        let boards = || Boards {
            ordinary: [&SPACE; 2],
            trusted: [&SPACE; 2],
            captures: [None; 2],
        };
        let mut view = ApartView {
            apart,
            descriptions: [descriptions(); 2],
            packet,
            answers: [(0, 12); 2],
            written: [&reply, second],
            boards: boards(),
            others: boards(),
        };
        change(&mut view);
        count_shared(&view, &mut ApartMet::default(), &mut Tally::new());
    }

    const fn all(side: usize) -> Apart {
        Apart {
            side,
            shared: Shared::All,
        }
    }

    #[test]
    fn a_faulty_packet_and_one_of_type_1_are_for_neither() {
        for (code, function, due) in [
            (0x04, 2, 0),
            (0x1B, 6, 1),
            (0x04, 0, 2),
            (0x05, 2, 2),
            (0x00, 6, 2),
            (0x84, 2, 0),
        ] {
            assert_eq!(whom(&read(code, function), 1, [2, 6]), due);
        }
        assert_eq!(whom(&read(0x84, 2), 2, [2, 6]), 2);
        let mut short = read(0x04, 2);
        short.length = 11;
        assert_eq!(whom(&short, 1, [2, 6]), 2);
    }

    #[test]
    fn two_runs_that_agree_in_what_they_should_are_counted() {
        counted(all(0), &read(0x04, 2), |view| {
            view.others.ordinary[0] = &OTHER;
            view.others.captures[1] = Some((0, 0));
        });
        counted(all(0), &read(0x05, 6), |_| {});
        counted(all(1), &read(0x1B, 6), |view| view.others.trusted[1] = &OTHER);
    }

    #[test]
    fn the_primarys_id_may_differ_where_the_primary_is_the_changed_function() {
        counted_with(all(1), &read(0x05, 6), &declined(0x22), |_| {});
    }

    #[test]
    #[should_panic(expected = "do not answer alike")]
    fn nothing_else_of_the_reply_may() {
        let mut another = declined(0x22);
        another[10] = 8;
        counted_with(all(1), &read(0x05, 6), &another, |_| {});
    }

    #[test]
    #[should_panic(expected = "do not answer alike")]
    fn another_id_of_the_unchanged_primary_stops_the_run() {
        counted_with(all(0), &read(0x05, 6), &declined(0x22), |_| {});
    }

    #[test]
    #[should_panic(expected = "do not answer alike")]
    fn another_reply_of_the_unchanged_alternate_stops_the_run() {
        counted_with(all(1), &read(0x04, 6), &declined(0x22), |_| {});
    }

    #[test]
    #[should_panic(expected = "do not answer alike")]
    fn another_number_stops_the_run() {
        counted(all(0), &read(0x04, 2), |view| view.answers[1].0 = 2);
    }

    #[test]
    #[should_panic(expected = "change something of the other")]
    fn another_ordinary_byte_stops_the_run() {
        counted(all(0), &read(0x04, 2), |view| view.boards.ordinary[1] = &OTHER);
    }

    #[test]
    #[should_panic(expected = "change something of the other")]
    fn another_capture_stops_the_run() {
        counted(all(1), &read(0x04, 6), |view| view.boards.captures[0] = Some((5, 3)));
    }

    #[test]
    #[should_panic(expected = "do not share what they should")]
    fn a_packet_for_the_other_function_is_not_shared() {
        counted(all(1), &read(0x04, 2), |_| {});
    }

    #[test]
    #[should_panic(expected = "two runs of demand 3 do not agree")]
    fn another_trusted_byte_stops_the_run_in_the_second_half() {
        let apart = Apart {
            side: 1,
            shared: Shared::Half(Half::Trusted),
        };
        counted(apart, &read(0x1B, 6), |view| view.boards.trusted[0] = &OTHER);
    }

    #[test]
    #[should_panic(expected = "only packets for the other function")]
    fn a_packet_for_neither_is_no_runs_own() {
        let view = OwnView {
            apart: all(0),
            run: 0,
            descriptions: descriptions(),
            packet: &read(0x04, 0),
            number: 0,
            written: &declined(0x1A),
        };
        count_own(&view, &mut ApartMet::default(), &mut Tally::new());
    }
}
