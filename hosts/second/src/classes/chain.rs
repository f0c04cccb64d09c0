//! A list's pointers followed once more, to tell where they lead, in another way than the model's.
//!
//! The model marks every word that it meets. Here one walker waits and another runs on, and where the runner comes to
//! the one that waits, there is a loop (Brent). The one that waits is moved up to the runner after 1, 2, 4, 8 .. steps,
//! so that it stands in the loop at last, and stays for long enough. There are no marks, and there is no bound.

use super::header::{Header, pointer};
use crate::generate::Shape;
use crate::model::List;

/// Where a list's pointers lead.
#[derive(Clone, Copy, Debug, PartialEq, Eq)]
pub enum Ending {
    /// To an end, after so many headers.
    End { count: usize },
    /// Back to a header: so many before it, and then so many over and over.
    Loop { tail: usize, length: usize },
    /// To an offset below the floor, after so many headers.
    Below { steps: usize, offset: usize },
}

/// A list's pointers, and what was seen on the way.
pub struct Chain {
    pub ending: Ending,
    /// The start pointer as it lies in the space; 100h for the extended list.
    pub start: usize,
    /// The last pointer as it lies in the space: to the end, below the floor, or the first one back.
    pub last: usize,
    /// Which of the bottom bits 1, 2 and 3 a pointer to a header had, by bits 1 to 3.
    pub bottom_bits: u8,
}

/// The offset that a pointer leads to.
pub const fn offset(pointer: usize) -> usize {
    pointer / 4 * 4
}

/// The pointers of one list in a space of 4,096 bytes.
#[derive(Clone, Copy)]
pub struct Pointers<'lent> {
    list: List,
    floor: usize,
    space: &'lent [u8],
}

impl<'lent> Pointers<'lent> {
    /// None where the space is not whole.
    pub fn new(shape: Shape, space: &'lent [u8]) -> Option<Self> {
        let (list, floor) = (shape.list, shape.floor);
        (space.len() == 4096).then_some(Self { list, floor, space })
    }

    /// Whether the list is called empty: the compatible one by the table, whatever its pointers hold, and the extended
    /// one by request 2/13, where nothing is in the word at 100h.
    pub fn are_declared_empty(self) -> bool {
        match self.list {
            List::Compatible => self.space[0x06] >> 4 & 1 == 0,
            List::Extended => self.header(0x100).is_zero(),
            List::Trusted => false,
        }
    }

    /// The header at an offset.
    pub fn header(self, at: usize) -> Header {
        Header::read(self.list, self.space, at)
    }

    /// The offsets of the headers from the start on, to an end or below the floor, and round a loop for ever.
    pub fn offsets(self) -> impl Iterator<Item = usize> {
        let met = move |pointer| Some(offset(pointer)).filter(|&at| at >= self.floor);
        std::iter::successors(met(self.start()), move |&at| met(self.next(at)))
    }

    /// The headers at these offsets.
    pub fn headers(self) -> impl Iterator<Item = Header> {
        self.offsets().map(move |at| self.header(at))
    }

    /// The structure that holds the pointer after so many headers: the last of them. The start is the pointer before
    /// all headers; no structure holds it, and 0 stands for that.
    pub fn holder(self, headers: usize) -> usize {
        let last = headers.checked_sub(1).map(|before| self.offsets().nth(before));
        last.map_or(0, |offset| offset.expect("so many headers are met"))
    }

    /// The first pointers as they lie in the space, up to so many.
    pub fn first(self, most: usize) -> Vec<usize> {
        let next = |&pointer: &usize| (offset(pointer) >= self.floor).then(|| self.next(offset(pointer)));
        std::iter::successors(Some(self.start()), next).take(most).collect()
    }

    /// The pointer that the list starts with.
    fn start(self) -> usize {
        match self.list {
            List::Compatible => self.space[0x34].into(),
            List::Extended => 0x100,
            List::Trusted => usize::from(self.space[4]) | usize::from(self.space[5] & 0x0F) << 8,
        }
    }

    /// The pointer of the header at an offset.
    pub fn next(self, at: usize) -> usize {
        pointer(self.list, self.space, at)
    }

    /// Follows the pointers to an end, below the floor, or round a loop.
    pub fn follow(self) -> Chain {
        let start = self.start();
        let mut chain = Chain {
            ending: Ending::End { count: 0 },
            start,
            last: start,
            bottom_bits: 0,
        };
        let mut at = offset(start);
        let mut headers = 0;
        let (mut waiting, mut since, mut patience) = (at, 0, 1);
        while at >= self.floor {
            if headers > 0 {
                chain.bottom_bits |= 1 << (chain.last % 4);
            }
            chain.last = self.next(at);
            at = offset(chain.last);
            (headers, since) = (headers + 1, since + 1);
            if at == waiting {
                (chain.ending, chain.last) = self.loop_of(since);
                return chain;
            }
            if since == patience {
                (waiting, since, patience) = (at, 0, 2 * patience);
            }
        }
        chain.ending = match at {
            0 => Ending::End { count: headers },
            offset => Ending::Below { steps: headers, offset },
        };
        chain
    }

    /// A loop of so many headers, and the first pointer back. Of two walkers, one ahead of the other by the loop's
    /// length, both come to its first header at once.
    fn loop_of(self, length: usize) -> (Ending, usize) {
        let next = |pointer| self.next(offset(pointer));
        let (mut behind, mut ahead) = (self.start(), self.start());
        for _ in 0..length {
            ahead = next(ahead);
        }
        let mut tail = 0;
        while offset(behind) != offset(ahead) {
            (behind, ahead) = (next(behind), next(ahead));
            tail += 1;
        }
        (Ending::Loop { tail, length }, ahead)
    }
}

#[cfg(test)]
mod tests {
    use super::{Ending, Pointers};
    use crate::generate::SHAPES;

    /// Where a trusted list in the order of memory from 008h on leads, of so many headers, the last with this pointer:
    /// the ending, the last pointer, and the structure that holds it.
    fn ending(headers: usize, last: usize) -> (Ending, usize, usize) {
        let mut space = [0; 4096];
        space[0x004] = 0x08;
        for header in 1..=headers {
            let at = 4 + 4 * header;
            let pointer = if header == headers { last } else { at + 4 };
            space[at + 2..at + 4].copy_from_slice(&(pointer as u16 * 16).to_le_bytes());
        }
        let pointers = Pointers::new(SHAPES[2], &space).expect("a whole space");
        let chain = pointers.follow();
        (chain.ending, chain.last, pointers.holder(headers))
    }

    #[test]
    fn ends_loops_and_floors_are_told_apart() {
        for headers in (1..200).chain([511, 512, 513, 1021, 1022]) {
            let holder = 4 + 4 * headers;
            assert_eq!(ending(headers, 3), (Ending::End { count: headers }, 3, holder));
            let below = Ending::Below {
                steps: headers,
                offset: 4,
            };
            assert_eq!(ending(headers, 6), (below, 6, holder));
            for tail in 0..headers {
                let length = headers - tail;
                let back = 8 + 4 * tail + headers % 4;
                assert_eq!(ending(headers, back), (Ending::Loop { tail, length }, back, holder));
            }
        }
    }

    #[test]
    fn no_structure_holds_the_start() {
        let mut space = [0; 4096];
        space[0x004] = 0x07;
        let pointers = Pointers::new(SHAPES[2], &space).expect("a whole space");
        let below = Ending::Below { steps: 0, offset: 4 };
        assert_eq!((pointers.follow().ending, pointers.holder(0)), (below, 0));
    }
}
