//! Walks of every shape, on the model. What each must answer is known from how it was laid out.

use super::bench_sheet::{LISTS, set_next, set_start};
use super::{List, Walked, walk};

/// What the room is filled with before it is lent.
const LENT: u16 = 0xAAAA;
/// Has no factor in common with any maximum, so that steps of so many words come to every word.
const STRIDE: usize = 389;

/// A list that is chained in an order other than that of memory, from its floor on.
struct Laid {
    list: List,
    order: Vec<u16>,
    space: [u8; 4096],
}

impl Laid {
    fn new(list: List, floor: u16, maximum: usize) -> Self {
        let order: Vec<u16> = (0..maximum)
            .map(|place| floor + 4 * (place * STRIDE % maximum) as u16)
            .collect();
        let mut laid = Self {
            list,
            order,
            space: [0; 4096],
        };
        set_start(list, &mut laid.space, floor);
        for place in 1..maximum {
            laid.point(place - 1, laid.order[place]);
        }
        laid
    }

    /// Sets the pointer of the header at a place of the order, with bottom bits that differ from place to place.
    fn point(&mut self, place: usize, to: u16) {
        let pointer = to | (place % 4) as u16;
        set_next(self.list, &mut self.space, self.order[place].into(), pointer);
    }

    /// Walks the list, and answers the number and the place with what was listed. The rest of the room has to stay.
    fn walk(&self) -> (u8, u16, Vec<u16>) {
        let mut room = vec![LENT; self.order.len() + 1];
        let Walked { number, count, place } = walk(self.list, &self.space, &mut room);
        assert!(room[count..].iter().all(|&cell| cell == LENT));
        room.truncate(count);
        (number, place, room)
    }
}

/// How many headers are tried: all numbers for the shortest list, else the edges and the middle.
fn numbers_of_headers(maximum: usize) -> Vec<usize> {
    if maximum == 48 {
        return (1..=maximum).collect();
    }
    vec![1, 2, 3, 4, maximum / 2, maximum - 2, maximum - 1, maximum]
}

#[test]
fn the_last_header_to_the_end_to_every_header_and_below_the_floor() {
    for (list, floor, maximum) in LISTS {
        for headers in numbers_of_headers(maximum) {
            let mut laid = Laid::new(list, floor, maximum);
            let last = laid.order[headers - 1];
            laid.point(headers - 1, 0);
            assert_eq!(laid.walk(), (0, 0, laid.order[..headers].to_vec()));
            for back in 0..headers {
                laid.point(headers - 1, laid.order[back]);
                assert_eq!(
                    laid.walk(),
                    (12, last, Vec::new()),
                    "{list:?}, header {headers} to header {back}"
                );
            }
            for below in (4..floor).step_by(4) {
                laid.point(headers - 1, below);
                assert_eq!(
                    laid.walk(),
                    (11, last, Vec::new()),
                    "{list:?}, header {headers} to {below:#x}"
                );
            }
        }
    }
}

#[test]
fn every_start() {
    for (list, floor, pointers) in [(List::Compatible, 0x040, 0x100), (List::Trusted, 0x008, 0x1000)] {
        for pointer in 0..pointers {
            let mut laid = Laid {
                list,
                order: vec![0; 1022],
                space: [0; 4096],
            };
            set_start(list, &mut laid.space, pointer);
            let expected = match pointer {
                0..4 => (0, 0, Vec::new()),
                _ if pointer < floor => (11, 0, Vec::new()),
                _ => (0, 0, vec![pointer / 4 * 4]),
            };
            assert_eq!(laid.walk(), expected, "{list:?}, start {pointer:#x}");
        }
    }
}
