//! The headers of a list: each with the offset that the walk gives, and the ID and version that stand there.
#![forbid(unsafe_code)]

mod common;

use common::{LISTS, SPACE, chained, floor};
use thawribbon::{Header, List, Offset, Refusal, chain, headers};

/// The longest chain of a list, over words whose ID and version differ from one to the next.
fn longest(list: List) -> Vec<u8> {
    let offsets: Vec<usize> = (0..list.maximum()).map(|place| floor(list) + 4 * place).collect();
    let mut space = chained(list, &offsets, 0);
    for at in offsets {
        match list {
            List::Compatible => space[at] = (at / 4) as u8,
            List::Extended | List::Trusted => {
                space[at..at + 2].copy_from_slice(&(at as u16 ^ 0x5AA5).to_le_bytes());
                space[at + 2] = space[at + 2] & 0xF0 | (at / 4 % 16) as u8;
            }
        }
    }
    space
}

#[test]
fn every_header_has_its_id_and_version() {
    for list in LISTS {
        let listed = headers(list, &longest(list)).expect("a legal chain");
        assert_eq!(listed.len(), list.maximum());
        for (place, header) in listed.into_iter().enumerate() {
            let offset = (floor(list) + 4 * place) as Offset;
            let expected = match list {
                List::Compatible => Header {
                    offset,
                    id: offset / 4,
                    version: None,
                },
                List::Extended | List::Trusted => Header {
                    offset,
                    id: offset ^ 0x5AA5,
                    version: Some((offset / 4 % 16) as u8),
                },
            };
            assert_eq!(header, expected, "{list:?}");
        }
    }
}

#[test]
fn the_offsets_are_those_of_the_chain() {
    for list in LISTS {
        for space in [longest(list), vec![0; SPACE]] {
            let listed = headers(list, &space).expect("a chain");
            let offsets: Vec<Offset> = listed.iter().map(|header| header.offset).collect();
            assert_eq!(Ok(offsets), chain(list, &space));
        }
    }
}

#[test]
fn a_broken_list_and_another_size_are_refused_as_a_walk_is() {
    for list in LISTS {
        let broken = chained(list, &[floor(list)], floor(list));
        let place = floor(list) as Offset;
        assert_eq!(headers(list, &broken), Err(Refusal::ComesBack { place }));
        for length in [0, 1, SPACE - 1, SPACE + 1] {
            assert_eq!(headers(list, &vec![0; length]), Err(Refusal::BadDescription));
        }
    }
}

/// The lines of the listing program's samples, by this crate.
#[test]
fn a_header_is_written_as_the_listing_writes_it() {
    listed_as(
        include_bytes!("../../../samples/letters.space"),
        include_str!("../../../samples/letters.text"),
    );
    listed_as(
        include_bytes!("../../../samples/blanked.space"),
        include_str!("../../../samples/blanked.text"),
    );
}

fn listed_as(space: &[u8], text: &str) {
    let mut lines = Vec::new();
    for (name, list) in [("compatible", List::Compatible), ("extended", List::Extended)] {
        let listed = headers(list, space).expect("a legal chain");
        lines.push(format!("{name} {}", listed.len()));
        lines.extend(listed.iter().map(Header::to_string));
    }
    lines.push("end".to_string());
    assert_eq!(lines, text.lines().collect::<Vec<_>>());
}
