//! What a board has in its spaces and has captured, kept beside it: to be compared, and to be put back.

use super::board::Board;

/// Of a board of one function, or of the primary and the alternate.
#[derive(Clone, PartialEq, Eq)]
pub struct Snapshot {
    pub sides: Vec<Side>,
}

/// Of one function: the bytes of the ordinary and of the trusted space, and the capture.
#[derive(Clone, PartialEq, Eq)]
pub struct Side {
    pub spaces: [Vec<u8>; 2],
    pub capture: Option<(u8, u8)>,
}

impl Snapshot {
    pub fn of(boards: &[Board]) -> Self {
        let side = |board: &Board| Side {
            spaces: [&board.ordinary, &board.trusted].map(|space| space.ours().to_vec()),
            capture: board.capture,
        };
        Self {
            sides: boards.iter().map(side).collect(),
        }
    }

    /// Gives boards what these had.
    pub fn put(&self, boards: &mut [Board]) {
        for (board, side) in boards.iter_mut().zip(&self.sides) {
            let [ordinary, trusted] = &side.spaces;
            board.ordinary.set(0, ordinary);
            board.trusted.set(0, trusted);
            board.capture = side.capture;
        }
    }
}

#[cfg(test)]
mod tests {
    use super::super::random::Random;
    use super::{Board, Snapshot};

    #[test]
    fn what_is_put_back_is_what_there_was() {
        let mut random = Random::new(1);
        let mut boards = [Board::spent(), Board::spent()];
        for board in &mut boards {
            board.renew(&mut random);
        }
        let before = Snapshot::of(&boards);
        for change in 0..3 {
            match change {
                0 => boards[1].capture = Some((0, 0)),
                1 => boards[0].ordinary.set(4095, &[!before.sides[0].spaces[0][4095]]),
                _ => boards[1].trusted.set(0, &[!before.sides[1].spaces[1][0]]),
            }
            assert!(Snapshot::of(&boards) != before);
            before.put(&mut boards);
            assert!(Snapshot::of(&boards) == before);
        }
    }
}
