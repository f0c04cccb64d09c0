//! Addresses judged: every edge of a group up to the largest address, every group, and every port that a packet enters or
//! leaves by.
#![forbid(unsafe_code)]

mod common;

use common::multicast::{Drawn, FOUR, FOUR_AT, hits_nothing, is_dropped, judged, judged_again, leaves_by};
use thawribbon::{Groups, PORTS};

/// Two ports. A packet enters by the first, whose fields these are, and the second receives every group.
fn two(entering: Groups) -> [Groups; 2] {
    let receive = u64::MAX;
    [entering, Groups { receive, ..entering }]
}

#[test]
fn below_at_and_above_the_groups() {
    let ports = two(FOUR);
    for address in [0, FOUR_AT - 0x1000, FOUR_AT - 1, FOUR_AT + 0x4000, u64::MAX] {
        hits_nothing(&ports, 0, address);
    }
    for (offset, group) in [(0, 0), (0xFFF, 0), (0x1000, 1), (0x2FFF, 2), (0x3000, 3), (0x3FFF, 3)] {
        leaves_by(&ports, 0, FOUR_AT + offset, group, 0b10);
    }
}

/// It is the highest group, and not how many there are.
#[test]
fn every_num_group() {
    for num_group in 0..64 {
        let ports = two(Groups { num_group, ..FOUR });
        let last = FOUR_AT + 0x1000 * num_group;
        leaves_by(&ports, 0, last, num_group as u8, 0b10);
        leaves_by(&ports, 0, last + 0xFFF, num_group as u8, 0b10);
        hits_nothing(&ports, 0, last + 0x1000);
    }
}

/// From base 0 on: the first and the last address of every group that there is.
#[test]
fn every_index_position() {
    for index in 12..64 {
        let ports = two(Groups {
            index,
            base: 0,
            num_group: 63,
            ..FOUR
        });
        let there_are = (1_u128 << 64 >> index).min(64) as u64;
        for group in 0..there_are {
            let first = group << index;
            leaves_by(&ports, 0, first, group as u8, 0b10);
            leaves_by(&ports, 0, first + ((1 << index) - 1), group as u8, 0b10);
        }
        if index < 58 {
            hits_nothing(&ports, 0, 64 << index);
        } else {
            leaves_by(&ports, 0, u64::MAX, (there_are - 1) as u8, 0b10);
        }
    }
}

/// It has one page of addresses, which is group 0's whatever the Index Position; and no sum comes round to address 0.
#[test]
fn the_largest_base() {
    let base = 0xFFFF_FFFF_FFFF_F000;
    for index in 12..64 {
        let ports = two(Groups {
            index,
            base,
            num_group: 63,
            ..FOUR
        });
        for address in [base, u64::MAX] {
            leaves_by(&ports, 0, address, 0, 0b10);
        }
        for address in [base - 1, 0, 0xFFF, 0x1000, (1 << index) - 1] {
            hits_nothing(&ports, 0, address);
        }
    }
}

#[test]
fn groups_that_would_end_past_the_largest_address() {
    let base = 0xFFFF_FFFF_FFFF_B000; // two groups and a half
    let ports = two(Groups {
        base,
        index: 13,
        num_group: 63,
        ..FOUR
    });
    for (offset, group) in [(0, 0), (0x1FFF, 0), (0x2000, 1), (0x3FFF, 1), (0x4000, 2), (0x4FFF, 2)] {
        leaves_by(&ports, 0, base + offset, group, 0b10);
    }
    for address in [base - 1, 0, 0xFFF, 0x1000, 0x3000] {
        hits_nothing(&ports, 0, address);
    }
    // A group is half of all addresses.
    let base = 0x8000_0000_0000_1000;
    let ports = two(Groups {
        base,
        index: 63,
        ..FOUR
    });
    leaves_by(&ports, 0, u64::MAX, 0, 0b10);
    for address in [base - 1, 0, 0xFFF] {
        hits_nothing(&ports, 0, address);
    }
}

/// By its own bit of Receive and of Block All, and by no other; those from 32 on too.
#[test]
fn every_group() {
    let entering = Groups { num_group: 63, ..FOUR };
    for (hit, set) in (0..64).flat_map(|hit| (0..64).map(move |set| (hit, set))) {
        let (address, register) = (FOUR_AT + 0x1000 * u64::from(hit), 1 << set);
        let receiving = Groups {
            receive: register,
            ..entering
        };
        leaves_by(
            &[entering, receiving],
            0,
            address,
            hit,
            if hit == set { 0b10 } else { 0 },
        );
        let blocking = Groups {
            block_all: register,
            ..entering
        };
        if hit == set {
            is_dropped(&two(blocking), 0, address, hit);
        } else {
            leaves_by(&two(blocking), 0, address, hit, 0b10);
        }
    }
}

#[test]
fn every_port_of_32() {
    let receiving = Groups { receive: 0b10, ..FOUR };
    for entering in 0..PORTS {
        let address = FOUR_AT + 0x1000;
        leaves_by(&[receiving; PORTS], entering, address, 1, !(1 << entering));
        leaves_by(&[receiving; PORTS], entering, FOUR_AT, 0, 0);
        for place in 0..PORTS {
            let mut ports = [FOUR; PORTS];
            ports[place] = receiving;
            let by = if place == entering { 0 } else { 1 << place };
            leaves_by(&ports, entering, address, 1, by);
        }
    }
}

/// It counts where the packet enters, and nowhere else.
#[test]
fn block_all_at_every_port_of_32() {
    for (entering, place) in (0..PORTS).flat_map(|entering| (0..PORTS).map(move |place| (entering, place))) {
        let mut ports = [Groups {
            receive: u64::MAX,
            ..FOUR
        }; PORTS];
        ports[place].block_all = 0b100;
        let address = FOUR_AT + 0x2000;
        if place == entering {
            is_dropped(&ports, entering, address, 2);
        } else {
            leaves_by(&ports, entering, address, 2, !(1 << entering));
        }
    }
}

/// Of the others neither Enable, window nor groups count.
#[test]
fn the_group_is_that_of_the_entering_port() {
    let other = Groups {
        base: 0xFFFF_FFFF_FFFF_F000,
        block_all: u64::MAX,
        ..Groups::ZEROS
    };
    let receiving = Groups {
        receive: 0b1000,
        ..other
    };
    let ports = [other, FOUR, receiving];
    leaves_by(&ports, 1, FOUR_AT + 0x3000, 3, 0b100);
    hits_nothing(&ports, 0, FOUR_AT + 0x3000);
    hits_nothing(&ports, 2, FOUR_AT + 0x3000);
    let elsewhere = Groups {
        base: 0,
        receive: 0b1000,
        ..FOUR
    };
    let ports = [elsewhere, FOUR, receiving];
    leaves_by(&ports, 0, 0x3000, 3, 0b100);
    leaves_by(&ports, 1, FOUR_AT + 0x3000, 3, 0b101);
    hits_nothing(&ports, 1, 0x3000);
}

#[test]
fn no_address_hits_where_it_is_not_enabled() {
    for index in 0..64 {
        let ports = two(Groups {
            enable: 0,
            index,
            ..FOUR
        });
        for address in [0, FOUR_AT, u64::MAX] {
            hits_nothing(&ports, 0, address);
        }
    }
    hits_nothing(&[Groups::ZEROS], 0, 0);
}

#[test]
fn drawn_addresses_as_they_are_judged_another_way() {
    let (mut drawn, mut counted, mut high) = (Drawn(2), [0; 4], 0);
    for _ in 0..20_000 {
        let count = 1 + drawn.below(PORTS as u64);
        let ports: Vec<Groups> = (0..count).map(|_| drawn.groups()).collect();
        let entering = drawn.below(ports.len() as u64) as usize;
        let address = drawn.address(ports[entering]);
        let expected = judged_again(&ports, entering, address);
        assert_eq!(
            judged(&ports, entering, address),
            expected,
            "address {address:X}h, {ports:X?}"
        );
        counted[usize::from(expected.verdict)] += 1;
        high += usize::from(expected.group >= 32);
    }
    assert!(counted[1..].iter().all(|&count| count > 1_000), "{counted:?}");
    assert!(high > 1_000, "{high}");
}
