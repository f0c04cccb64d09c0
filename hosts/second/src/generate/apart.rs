//! Two runs of a board of two functions that have some packets in common: what begins alike in both, which packets they
//! share, and what has to be the same when one comes.

use super::board::Board;
use super::duo::Duo;
use super::half::Half;
use super::packet::Packet;
use super::random::Random;
use crate::model::{counts_as_trusted, is_for};

/// What is shared of the packets for one function.
#[derive(Clone, Copy, Debug, PartialEq, Eq)]
pub enum Shared {
    /// All packets for it, and those for neither: "packets for one function, ordinary or trusted, changed at will in one of
    /// two runs, change no answer, no written reply byte and no space of the other."
    All,
    /// One half of demand 3, which "holds for each function over the packets for it".
    Half(Half),
}

/// All of them, the first twice as often as each half of demand 3.
const SHARED: [Shared; 4] = [
    Shared::All,
    Shared::Half(Half::Ordinary),
    Shared::Half(Half::Trusted),
    Shared::All,
];

/// What two runs have in common: packets for the function of this place, 0 the primary and 1 the alternate.
#[derive(Clone, Copy, Debug, PartialEq, Eq)]
pub struct Apart {
    pub side: usize,
    pub shared: Shared,
}

impl Apart {
    /// How many turns there are.
    pub const TURNS: usize = 2 * SHARED.len();

    /// What is shared in a turn.
    pub const fn at(turn: usize) -> Self {
        Self {
            side: turn / SHARED.len(),
            shared: SHARED[turn % SHARED.len()],
        }
    }

    /// Makes two boards, each made by itself, begin as it has to be. "Both functions are well described in both runs, which
    /// have the same edition." All of the function's start is the same, or as much of it as the half of demand 3 says; the
    /// other function has its own start in each run, mostly with the same number.
    pub fn relate(self, duos: [&mut Duo; 2], random: &mut Random) {
        let [first, second] = duos;
        let edition = first.edition();
        for side in &mut second.sides {
            side.description.edition = edition;
        }
        let other = 1 - self.side;
        let [own, changed] = [self.side, other].map(|side| first.sides[side].description.function);
        let free = (own + random.within(1, 7) as u8) % 8;
        second.sides[other].description.function = if random.percent(70) { changed } else { free };
        let (one, two) = (&mut first.sides[self.side], &mut second.sides[self.side]);
        match self.shared {
            Shared::All => {
                two.description = one.description;
                two.capture = one.capture;
                two.take_ordinary(one);
                two.take_trusted(one);
            }
            Shared::Half(half) => half.relate([one, two], random),
        }
    }

    /// Whom the next packet is for that both runs have. Where all packets for the function are shared, those for neither are
    /// too.
    pub fn whom_shared(self, random: &mut Random) -> Option<usize> {
        match self.shared {
            Shared::All if random.percent(35) => None,
            _ => Some(self.side),
        }
    }

    /// Whether a packet is one of those that both runs have: in both it is for the function, and of the kind; or, where all
    /// are shared, for neither of both.
    pub fn is_shared(self, packet: &Packet, duos: [&Duo; 2]) -> bool {
        let edition = duos[0].edition();
        let [first, second] = duos.map(|duo| is_for(packet.as_slice(), edition, duo.numbers()));
        match self.shared {
            Shared::All => first == second && first != Some(1 - self.side),
            Shared::Half(half) => {
                let trusted = counts_as_trusted(packet.as_slice(), edition);
                first == Some(self.side) && trusted == (half == Half::Trusted)
            }
        }
    }

    /// Whom the next packet is for that a run has by itself. Where all packets for the function and for neither are shared,
    /// that is the other one.
    pub fn whom_own(self, random: &mut Random) -> Option<usize> {
        match self.shared {
            Shared::All => Some(1 - self.side),
            Shared::Half(_) => random.pick(&[Some(self.side), Some(self.side), Some(1 - self.side), None]),
        }
    }

    /// Whether a packet may come that both runs have. In the halves of demand 3 the function's own register, or its own
    /// capture, has to be the same.
    pub fn may_meet(self, duos: [&Duo; 2]) -> bool {
        match self.shared {
            Shared::All => true,
            Shared::Half(half) => half.may_meet(self.boards(duos)),
        }
    }

    /// The function in both runs.
    pub fn boards(self, duos: [&Duo; 2]) -> [&Board; 2] {
        duos.map(|duo| &duo.sides[self.side])
    }
}

#[cfg(test)]
mod tests {
    use super::super::packet::{LONGEST_PACKET, Packet};
    use super::{Apart, Duo, Half, Random, SHARED, Shared};

    fn related(apart: Apart, random: &mut Random) -> [Duo; 2] {
        let mut duos = [Duo::spent(), Duo::spent()];
        for duo in &mut duos {
            duo.renew(random);
        }
        let [first, second] = &mut duos;
        apart.relate([first, second], random);
        duos
    }

    #[test]
    fn both_runs_are_well_described_and_begin_as_they_have_to() {
        let mut random = Random::new(1);
        let mut other_numbers = 0;
        for (side, shared) in SHARED
            .repeat(16)
            .into_iter()
            .flat_map(|shared| [(0, shared), (1, shared)])
        {
            let apart = Apart { side, shared };
            let duos = related(apart, &mut random);
            let [first, second] = duos.each_ref().map(|duo| duo.numbers());
            assert!(first[0] != first[1] && second[0] != second[1] && first[side] == second[side]);
            other_numbers += usize::from(first[1 - side] != second[1 - side]);
            let editions = duos
                .iter()
                .flat_map(|duo| duo.sides.each_ref().map(|side| side.description.edition));
            assert!(editions.into_iter().all(|edition| edition == duos[0].edition()));
            assert!(apart.may_meet(duos.each_ref()));
            let [one, two] = apart.boards(duos.each_ref());
            let alike = [
                one.ordinary.ours() == two.ordinary.ours() && one.ordinary_marks.ours() == two.ordinary_marks.ours(),
                one.trusted.ours() == two.trusted.ours() && one.trusted_rules.ours() == two.trusted_rules.ours(),
            ];
            let due = match shared {
                Shared::All => [true, true],
                Shared::Half(half) => [half == Half::Ordinary, half == Half::Trusted],
            };
            assert!(alike.iter().zip(due).all(|(alike, due)| *alike || !due));
        }
        assert!(other_numbers > 5);
    }

    /// A read that names a function, of 12 bytes.
    fn read(code: u8, function: u8) -> Packet {
        let mut bytes = [0; LONGEST_PACKET];
        (bytes[0], bytes[3], bytes[9]) = (code, 1, function);
        Packet { bytes, length: 12 }
    }

    #[test]
    fn what_both_runs_have() {
        let mut random = Random::new(2);
        let mut duo = Duo::spent();
        duo.renew(&mut random);
        let [own, other] = duo.numbers();
        let free = (0..8)
            .find(|number| ![own, other].contains(number))
            .expect("there are eight");
        let sorted = |shared, packet: &Packet| {
            let apart = Apart { side: 0, shared };
            apart.is_shared(packet, [&duo, &duo])
        };
        let [all, ordinary, trusted, _] = SHARED;
        for (code, function, due) in [
            (0x04, own, [true, true, false]),
            (0x1B, own, [true, false, true]),
            (0x04, other, [false; 3]),
            (0x1B, other, [false; 3]),
            (0x04, free, [true, false, false]),
            (0x05, other, [true, false, false]),
            (0x00, other, [true, false, false]),
        ] {
            let packet = read(code, function);
            assert_eq!([all, ordinary, trusted].map(|shared| sorted(shared, &packet)), due);
        }
    }
}
