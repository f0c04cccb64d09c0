//! Request 3/13, sentence by sentence, on the model: what broke, and where.

use super::bench_sheet::{LISTS, refused, set_next, set_start};
use super::{List, Walked, walk};
use crate::generate::Random;

/// A space with a list that starts at an offset, and the next pointers of some headers.
fn laid(list: List, start: u16, nexts: &[(u16, u16)]) -> [u8; 4096] {
    let mut space = [0; 4096];
    set_start(list, &mut space, start);
    for &(at, next) in nexts {
        set_next(list, &mut space, at.into(), next);
    }
    space
}

/// Walks a list with room enough, and sees that a broken one leaves the room as it was.
fn walked(list: List, space: &[u8]) -> Walked {
    let mut room = [0xAAAA; 1022];
    let walked = walk(list, space, &mut room);
    assert!(room[walked.count..].iter().all(|&cell| cell == 0xAAAA));
    walked
}

/// "11 for a pointer below the floor": to every offset there, from the lowest structure and from the highest.
#[test]
fn eleven_for_every_pointer_below_the_floor() {
    for (list, floor, maximum) in LISTS {
        let highest = floor + 4 * (maximum as u16 - 1);
        for pointer in 4..floor {
            let space = laid(list, floor, &[(floor, pointer)]);
            assert_eq!(walked(list, &space), refused(11, floor), "{list:?}, {pointer:#x}");
            let space = laid(list, floor, &[(floor, highest), (highest, pointer)]);
            assert_eq!(walked(list, &space), refused(11, highest), "{list:?}, {pointer:#x}");
        }
    }
}

/// "12 for a pointer to an offset already in the chain": to itself, to the one before, and to the start, with every
/// bottom bit. Document 01's trap among them: "100h to 140h to 180h to 140h".
#[test]
fn twelve_for_a_pointer_to_an_offset_already_in_the_chain() {
    for (list, floor, _) in LISTS {
        let [second, third] = [floor + 0x40, floor + 0x80];
        for bits in 0..4 {
            for back in [floor, second, third] {
                let space = laid(list, floor, &[(floor, second), (second, third), (third, back + bits)]);
                assert_eq!(walked(list, &space), refused(12, third), "{list:?}, {back:#x}");
            }
        }
    }
}

/// "or 0 where the start itself is at fault". The extended list's is its floor.
#[test]
fn zero_where_the_start_itself_is_at_fault() {
    for (list, floor, _) in [LISTS[0], LISTS[2]] {
        for start in 4..floor {
            assert_eq!(
                walked(list, &laid(list, start, &[])),
                refused(11, 0),
                "{list:?}, {start:#x}"
            );
        }
    }
}

/// "so that the first fault is the one told": what no pointer leads to is no fault, and a walk does not go past one.
#[test]
fn the_first_fault_is_the_one_told() {
    for (list, floor, _) in LISTS {
        let [second, third, fourth] = [floor + 0x20, floor + 0x40, floor + 0x60];
        let below = floor - 4;
        let round = [(floor, second), (second, floor), (third, below), (fourth, fourth)];
        assert_eq!(walked(list, &laid(list, floor, &round)), refused(12, second));
        let under = [(floor, second), (second, below), (third, below), (fourth, third)];
        assert_eq!(walked(list, &laid(list, floor, &under)), refused(11, second));
        let under = [(floor, second), (second, below), (third, fourth), (fourth, third)];
        assert_eq!(walked(list, &laid(list, floor, &under)), refused(11, second));
        let sound = [(floor, second), (second, 0), (third, below), (fourth, fourth)];
        assert_eq!(walked(list, &laid(list, floor, &sound)).number, 0);
    }
}

/// "For packets and for walks the lowest applicable number is given", which tells no place.
#[test]
fn a_wrong_size_comes_before_what_broke() {
    for (list, floor, maximum) in LISTS {
        for last in [floor, floor - 4] {
            let space = laid(list, floor, &[(floor, last)]);
            let mut room = [0xAAAA; 1022];
            assert_eq!(walk(list, &space, &mut room[..maximum - 1]), refused(2, 0));
            assert_eq!(walk(list, &space[..4095], &mut room), refused(1, 0));
            assert_eq!(walk(list, &space[..4095], &mut room[..maximum - 1]), refused(1, 0));
            assert_eq!(room, [0xAAAA; 1022]);
        }
    }
}

/// Pointers among a few offsets, one of them 0 and one below the floor, so that every fault and every end is near.
fn few_offsets(list: List, floor: u16, maximum: usize, random: &mut Random) -> [u8; 4096] {
    let mut word = || floor + 4 * random.below(maximum) as u16;
    let headers = [floor, word(), word(), word(), word(), word(), word(), word()];
    let mut targets = headers.to_vec();
    targets.extend([0, 4 * random.within(1, usize::from(floor) / 4 - 1) as u16]);
    let mut to = || random.pick(&targets) + random.below(4) as u16;
    let start = to();
    laid(list, start, &headers.map(|at| (at, to())))
}

/// The offsets that a list's pointers lead to, up to the first below the floor, or one more than there are words.
fn offsets(list: List, floor: u16, space: &[u8; 4096]) -> Vec<u16> {
    let half_word = |at: usize| u16::from_le_bytes([space[at], space[at + 1]]);
    let next = |at: u16| match list {
        List::Compatible => u16::from(space[usize::from(at) + 1]) & 0xFC,
        _ => half_word(usize::from(at) + 2) >> 4 & 0xFFC,
    };
    let start = match list {
        List::Compatible => u16::from(space[0x34]) & 0xFC,
        List::Extended => 0x100,
        List::Trusted => half_word(0x004) & 0xFFC,
    };
    let offsets = std::iter::successors(Some(start), |&at| (at >= floor).then(|| next(at)));
    offsets.take(1025).collect()
}

/// Whether document 01 has 7 for these offsets: no end came.
fn is_broken(offsets: &[u16]) -> bool {
    offsets.last() != Some(&0)
}

/// What the request has: each offset is looked for among all before it.
fn expected(floor: u16, offsets: &[u16]) -> Walked {
    let is_last = |&met: &usize| offsets[met] < floor || offsets[..met].contains(&offsets[met]);
    let met = (0..offsets.len()).find(is_last).expect("fewer words than offsets");
    let place = if met == 0 { 0 } else { offsets[met - 1] };
    match offsets[met] {
        0 => Walked {
            number: 0,
            count: met,
            place: 0,
        },
        at if at < floor => refused(11, place),
        _ => refused(12, place),
    }
}

/// "7 is no longer given", and "A list is refused exactly when it was before."
#[test]
fn a_list_is_refused_exactly_when_it_was_before() {
    let mut random = Random::new(1);
    for (list, floor, maximum) in LISTS {
        let mut met = [0; 13];
        for _ in 0..5000 {
            let space = few_offsets(list, floor, maximum, &mut random);
            let offsets = offsets(list, floor, &space);
            let walked = walked(list, &space);
            assert_eq!(walked, expected(floor, &offsets));
            assert_eq!(walked.number != 0, is_broken(&offsets));
            met[usize::from(walked.number)] += 1;
        }
        assert!([0, 11, 12].iter().all(|&number| met[number] > 200), "{met:?}");
        assert_eq!(met.iter().sum::<usize>(), met[0] + met[11] + met[12]);
    }
}
