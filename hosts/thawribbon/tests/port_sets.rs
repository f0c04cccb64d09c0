//! The set of ports that a packet leaves by: every port in it and not in it, its order, and how it is shown.
#![forbid(unsafe_code)]

mod common;

use common::multicast::{Drawn, FOUR, FOUR_AT};
use thawribbon::{Groups, Judged, PORTS, PortSet, judge};

/// The set with these bits, which a packet that enters by none of its ports leaves by. One bit at least is 0.
fn set(bits: u32) -> PortSet {
    let mut ports = [FOUR; PORTS];
    for (place, port) in ports.iter_mut().enumerate() {
        port.receive = (bits >> place & 1).into();
    }
    let entering = bits.trailing_ones() as usize;
    match judge(&ports, entering, FOUR_AT) {
        Ok(Judged::Leaves { group: 0, ports }) => ports,
        other => panic!("{other:?}"),
    }
}

#[test]
fn each_port_by_itself() {
    for place in 0..PORTS {
        let set = set(1 << place);
        for other in 0..64 {
            assert_eq!(set.contains(other), other == place);
        }
        for bit in 5..64 {
            assert!(!set.contains((1 << bit) + place));
        }
        assert!(!set.contains(usize::MAX));
        assert_eq!((set.len(), set.is_empty(), set.bits()), (1, false, 1 << place));
        assert_eq!(set.iter().collect::<Vec<_>>(), [place]);
    }
}

#[test]
fn no_port_and_all_but_one() {
    assert!(set(0).is_empty() && set(0).iter().next().is_none());
    assert_eq!((set(0).len(), set(0)), (0, PortSet::default()));
    let all = set(u32::MAX >> 1);
    assert_eq!((all.len(), all.contains(30), all.contains(31)), (31, true, false));
    assert!(all.iter().eq(0..31));
}

#[test]
fn drawn_sets_have_their_ports_in_order() {
    let mut drawn = Drawn(3);
    for _ in 0..5_000 {
        let bits = drawn.number() as u32 & !(1 << drawn.below(32));
        let set = set(bits);
        let expected: Vec<usize> = (0..PORTS).filter(|place| bits >> place & 1 == 1).collect();
        assert_eq!(set.into_iter().collect::<Vec<_>>(), expected);
        assert_eq!((&set).into_iter().len(), expected.len());
        assert!((0..PORTS).filter(|&place| set.contains(place)).eq(expected));
        assert_eq!(set.bits(), bits);
    }
}

#[test]
fn a_set_that_is_used_up_stays_so() {
    let mut places = set(0b101).iter();
    assert_eq!(places.size_hint(), (2, Some(2)));
    assert_eq!(
        [places.next(), places.next(), places.next(), places.next()],
        [Some(0), Some(2), None, None]
    );
    assert_eq!(places.len(), 0);
}

#[test]
fn what_is_judged_is_shown_in_a_line() {
    let mut ports = [FOUR; 4];
    (ports[1].receive, ports[3].receive, ports[2].block_all) = (0b100, 0b100, 0b1000);
    let shown = |entering, offset| format!("{:?}", judge(&ports, entering, FOUR_AT + offset).expect("it is judged"));
    assert_eq!(shown(0, 0x2000), "Leaves { group: 2, ports: {1, 3} }");
    assert_eq!(shown(0, 0x1000), "Leaves { group: 1, ports: {} }");
    assert_eq!(shown(2, 0x3000), "Dropped { group: 3 }");
    assert_eq!(shown(0, 0x4000), "NoHit");
}

/// What a host would change is seen before it is written: a set bit, and the same address judged again.
#[test]
fn a_host_can_try_a_register_before_it_writes_it() {
    let mut ports: Vec<Groups> = vec![FOUR; 3];
    let before = judge(&ports, 0, FOUR_AT).expect("it is judged");
    assert!(matches!(before, Judged::Leaves { ports, .. } if ports.is_empty()));
    ports[2].receive |= 1;
    let after = judge(&ports, 0, FOUR_AT).expect("it is judged");
    assert!(matches!(after, Judged::Leaves { ports, .. } if ports.contains(2)));
}
