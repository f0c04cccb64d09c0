//! The list that an address is judged by: lists of every count, places that are in none, and fields that no reading gives.
#![forbid(unsafe_code)]

mod common;

use common::multicast::{FOUR, FOUR_AT, hits_nothing, is_not_judged, judged, judged_again, leaves_by, number};
use thawribbon::{Groups, Judged, PORTS, Refusal, judge};

const RECEIVING: Groups = Groups {
    receive: u64::MAX,
    ..FOUR
};

#[test]
fn lists_of_0_to_64_ports() {
    for count in 0..=64 {
        let ports = vec![RECEIVING; count];
        for entering in 0..=count + 1 {
            if count <= PORTS && entering < count {
                let all = ((1_u64 << count) - 1) as u32;
                leaves_by(&ports, entering, FOUR_AT, 0, all & !(1 << entering));
                hits_nothing(&ports, entering, FOUR_AT - 1);
            } else {
                is_not_judged(&ports, entering, FOUR_AT);
            }
        }
    }
    is_not_judged(&vec![RECEIVING; 100_000], 0, FOUR_AT);
}

#[test]
fn places_that_no_port_has() {
    let ports = [RECEIVING; PORTS];
    for bit in 5..64 {
        for entering in [1 << bit, (1 << bit) + 1, usize::MAX - bit] {
            is_not_judged(&ports, entering, FOUR_AT);
        }
    }
    for entering in [0, 1, usize::MAX] {
        is_not_judged(&[], entering, FOUR_AT);
    }
}

/// Fields that no reading gives, each at its edge and far from it.
const SPOILT: [Groups; 16] = [
    Groups { max_group: 64, ..FOUR },
    Groups {
        max_group: 1 << 32,
        ..FOUR
    },
    Groups {
        max_group: u64::MAX,
        ..FOUR
    },
    Groups { num_group: 64, ..FOUR },
    Groups {
        num_group: u64::MAX,
        ..FOUR
    },
    Groups { max_group: 2, ..FOUR },
    Groups {
        max_group: 2,
        enable: 0,
        ..FOUR
    },
    Groups { enable: 2, ..FOUR },
    Groups {
        enable: u64::MAX,
        ..FOUR
    },
    Groups { index: 64, ..FOUR },
    Groups {
        index: u64::MAX,
        ..FOUR
    },
    Groups {
        index: 64,
        enable: 0,
        ..FOUR
    },
    Groups { index: 11, ..FOUR },
    Groups { index: 0, ..FOUR },
    Groups {
        base: FOUR_AT + 1,
        ..FOUR
    },
    Groups {
        base: FOUR_AT + 0x800,
        enable: 0,
        ..FOUR
    },
];

/// Refused, whichever port the packet enters by and whether it would hit or not.
#[test]
fn fields_that_no_reading_gives_at_every_place_of_32() {
    for spoilt in SPOILT {
        for place in 0..PORTS {
            let mut ports = [RECEIVING; PORTS];
            ports[place] = spoilt;
            is_not_judged(&ports, place, FOUR_AT);
            is_not_judged(&ports, (place + 1) % PORTS, FOUR_AT);
            is_not_judged(&ports, (place + 31) % PORTS, FOUR_AT - 1);
        }
    }
}

/// One port, whose fields a reading can give, or none can.
fn is_good(port: Groups, good: bool) {
    if good {
        assert_eq!(
            judged(&[port], 0, FOUR_AT),
            judged_again(&[port], 0, FOUR_AT),
            "{port:X?}"
        );
    } else {
        is_not_judged(&[port], 0, FOUR_AT);
    }
}

#[test]
fn every_bit_of_a_field() {
    let none = Groups::ZEROS;
    for (bit, value) in (0..64).map(|bit| (bit, 1 << bit)) {
        is_good(
            Groups {
                max_group: value,
                ..none
            },
            bit < 6,
        );
        is_good(
            Groups {
                max_group: 63,
                num_group: value,
                ..none
            },
            bit < 6,
        );
        is_good(Groups { enable: value, ..FOUR }, bit == 0);
        is_good(Groups { index: value, ..none }, bit < 6);
        is_good(Groups { base: value, ..none }, bit >= 12);
        is_good(Groups { receive: value, ..none }, true);
        is_good(
            Groups {
                block_all: value,
                ..none
            },
            true,
        );
    }
}

/// What a reading refuses with 13 is refused here with 1, and all else is judged.
#[test]
fn fields_that_do_not_go_together() {
    for index in 0..64 {
        for max_group in 0..64 {
            for num_group in (0..64).step_by(7) {
                for enable in [0, 1] {
                    let port = Groups {
                        max_group,
                        num_group,
                        enable,
                        index,
                        ..FOUR
                    };
                    is_good(port, number(port) == 0);
                }
            }
        }
    }
}

#[test]
fn a_question_mark_stops_at_a_list_that_is_refused() {
    fn leaves(ports: &[Groups], entering: usize) -> Result<bool, Refusal> {
        Ok(matches!(judge(ports, entering, FOUR_AT)?, Judged::Leaves { .. }))
    }
    assert_eq!(leaves(&[RECEIVING; 2], 1), Ok(true));
    assert_eq!(leaves(&[RECEIVING; 2], 2), Err(Refusal::BadDescription));
    assert_eq!(leaves(&SPOILT[..1], 0), Err(Refusal::BadDescription));
}
