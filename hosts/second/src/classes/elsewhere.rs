//! Faults where no walk comes: headers from the floor on that are not met, and lead below the floor or round a loop of
//! one or two.

use super::chain::{Ending, Pointers, offset};
use super::group::Group;
use super::tally::Tally;
use crate::generate::Shape;

/// Counts a walk by the faults of headers that it does not meet.
pub fn count(shape: Shape, pointers: Pointers<'_>, ending: Ending, tally: &mut Tally) {
    let (class, met) = match ending {
        Ending::End { count } => (0, count),
        Ending::Below { steps, .. } => (1, steps),
        Ending::Loop { tail, length } => (2, tail + length),
    };
    let first = 6 * shape.place() + 2 * class;
    let (below, round) = faults_elsewhere(shape, pointers, met);
    tally.add_if(below, Group::Elsewhere, first);
    tally.add_if(round, Group::Elsewhere, first + 1);
}

/// Whether a header that is not among the first so many leads below the floor, and whether one leads to itself, or to
/// another that leads back to it.
fn faults_elsewhere(shape: Shape, pointers: Pointers<'_>, met: usize) -> (bool, bool) {
    let next = |at| offset(pointers.next(at));
    let mut is_met = [false; 1024];
    for at in pointers.offsets().take(met) {
        is_met[at / 4] = true;
    }
    let (mut below, mut round) = (false, false);
    let words = (shape.floor..=shape.highest()).step_by(4);
    for at in words.filter(|at| !is_met[at / 4]) {
        match next(at) {
            0 => {}
            to if to < shape.floor => below = true,
            to => round |= next(to) == at,
        }
    }
    (below, round)
}

#[cfg(test)]
mod tests {
    use super::{Pointers, faults_elsewhere};
    use crate::generate::SHAPES;

    /// The faults elsewhere of a compatible list whose first header, at 040h, is the only one that is met.
    fn faults(nexts: &[(usize, u8)]) -> (bool, bool) {
        let mut space = [0; 4096];
        space[0x34] = 0x40;
        for &(at, next) in nexts {
            space[at + 1] = next;
        }
        let pointers = Pointers::new(SHAPES[0], &space).expect("a whole space");
        faults_elsewhere(SHAPES[0], pointers, 1)
    }

    #[test]
    fn only_headers_that_are_not_met_count() {
        assert_eq!(faults(&[]), (false, false));
        assert_eq!(faults(&[(0x40, 0x40)]), (false, false));
        assert_eq!(faults(&[(0x40, 0x3C)]), (false, false));
        assert_eq!(faults(&[(0x44, 0x40), (0xFC, 0x44)]), (false, false));
        assert_eq!(faults(&[(0xFC, 0x3F)]), (true, false));
        assert_eq!(faults(&[(0x44, 0x47)]), (false, true));
        assert_eq!(faults(&[(0x80, 0xFC), (0xFC, 0x80)]), (false, true));
        assert_eq!(faults(&[(0x44, 0x80), (0x80, 0x80), (0x60, 0x04)]), (true, true));
    }
}
