//! The two halves of demand 3: what two runs have in common, and what they may differ in.

use super::board::Board;
use super::random::Random;

/// Which half it is, by the packets that both runs have.
#[derive(Clone, Copy, Debug, PartialEq, Eq)]
pub enum Half {
    Ordinary,
    Trusted,
}

pub const HALVES: [Half; 2] = [Half::Ordinary, Half::Trusted];

impl Half {
    /// Makes two boards, each made by itself, begin as the half says. By request 9/13 "both its runs have the same
    /// edition".
    ///
    /// In the first half, they have the same ordinary state: "the function number, A, the ordinary bytes and rules, and the
    /// capture", and by 6/13 the ordinary marks. The word at B, which may lie elsewhere, has the same bytes in both, and the
    /// same rules and marks, so that it can be made the same again. In the second, they have the same function number,
    /// trusted bytes, rules and marks; A, B and all that is ordinary differ. Nothing is captured in either.
    pub fn relate(self, boards: [&mut Board; 2], random: &mut Random) {
        let [first, second] = boards;
        second.description.function = first.description.function;
        second.description.edition = first.description.edition;
        match self {
            Self::Ordinary => {
                second.description.a = first.description.a;
                if random.percent(30) {
                    second.description.b = first.description.b;
                }
                second.take_ordinary(first);
                take_register(second, first);
            }
            Self::Trusted => second.take_trusted(first),
        }
    }

    /// What has to be the same in both runs whenever a packet comes that both have: "If the correlation register holds the
    /// same value in both whenever an ordinary packet is served"; "equal capture at each trusted packet".
    pub fn may_meet(self, boards: [&Board; 2]) -> bool {
        let [first, second] = boards;
        match self {
            Self::Ordinary => register(first) == register(second),
            Self::Trusted => first.capture == second.capture,
        }
    }
}

/// "the correlation register's value is the four trusted bytes at B."
pub fn register(board: &Board) -> u32 {
    board.trusted.word(board.description.b as usize)
}

/// Gives a board's word at B the bytes of another's, and its rules and marks.
fn take_register(board: &mut Board, other: &Board) {
    let (at, from) = (board.description.b as usize, other.description.b as usize);
    board.trusted.set_word(at, other.trusted.word(from));
    board.trusted_rules.set_word(at, other.trusted_rules.word(from));
    board.trusted_marks.set_word(at, other.trusted_marks.word(from));
}

#[cfg(test)]
mod tests {
    use super::{Board, HALVES, Half, Random, register};

    /// Two boards, each made by itself, that begin as a half says.
    fn related(half: Half, random: &mut Random) -> [Board; 2] {
        let [mut first, mut second] = [(); 2].map(|()| Board::spent());
        first.renew(random);
        second.renew(random);
        half.relate([&mut first, &mut second], random);
        [first, second]
    }

    #[test]
    fn both_runs_have_the_same_function_and_edition_and_may_meet() {
        let mut random = Random::new(1);
        for half in HALVES.repeat(8) {
            let boards = related(half, &mut random);
            let [first, second] = boards.each_ref().map(|board| board.description);
            assert_eq!((first.function, first.edition), (second.function, second.edition));
            assert!(half.may_meet(boards.each_ref()));
        }
    }

    #[test]
    fn in_the_first_half_the_ordinary_state_is_the_same_and_so_is_the_register() {
        let mut random = Random::new(2);
        for _ in 0..8 {
            let [first, second] = related(Half::Ordinary, &mut random);
            assert_eq!(first.description.a, second.description.a);
            assert_eq!((first.capture, register(&first)), (second.capture, register(&second)));
            assert_eq!(first.ordinary.ours(), second.ordinary.ours());
            assert_eq!(first.ordinary_rules.ours(), second.ordinary_rules.ours());
            assert_eq!(first.ordinary_marks.ours(), second.ordinary_marks.ours());
            assert_ne!(first.trusted_rules.ours(), second.trusted_rules.ours());
        }
    }

    #[test]
    fn in_the_second_half_the_trusted_space_is_the_same() {
        let mut random = Random::new(3);
        for _ in 0..8 {
            let [first, second] = related(Half::Trusted, &mut random);
            assert_eq!(first.trusted.ours(), second.trusted.ours());
            assert_eq!(first.trusted_rules.ours(), second.trusted_rules.ours());
            assert_eq!(first.trusted_marks.ours(), second.trusted_marks.ours());
            assert_ne!(first.ordinary_rules.ours(), second.ordinary_rules.ours());
        }
    }

    #[test]
    fn a_register_or_a_capture_of_one_run_only_keeps_them_apart() {
        let mut random = Random::new(4);
        let [mut first, second] = related(Half::Ordinary, &mut random);
        let b = first.description.b as usize;
        first.trusted.set_word(b, !register(&first));
        assert!(!Half::Ordinary.may_meet([&first, &second]));
        let [mut first, second] = related(Half::Trusted, &mut random);
        first.capture = Some((0, 0));
        assert!(!Half::Trusted.may_meet([&first, &second]));
    }
}
