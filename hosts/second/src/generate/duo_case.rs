//! A call of `serve_pair` as a whole: without a fault of its own, with some, or plain noise.

use super::case::ServeCase;
use super::duo::Duo;
use super::fault::FaultMaker;
use super::lengths::WrongLengths;
use super::packet::{Packet, noise};
use super::random::Random;

/// A call of `serve_pair`, but for the bytes of the spaces, of their rules and of their marks: what each function would be
/// called with alone. The edition, the packet and the length of the reply are the same in both.
#[derive(Clone, Copy)]
pub struct DuoCase {
    pub sides: [ServeCase; 2],
}

impl DuoCase {
    /// A call without a fault but for what the packet may have.
    pub fn sound(duo: &Duo, packet: Packet, random: &mut Random) -> Self {
        let [primary, alternate] = &duo.sides;
        let sides = [primary, alternate].map(|side| ServeCase::sound(side, packet, random));
        let mut case = Self { sides };
        case.share(0);
        case
    }

    /// A random packet for the board, or a call in which all that is said of one function, or of both, is random.
    pub fn noise(duo: &Duo, random: &mut Random) -> Self {
        let mut case = Self::sound(duo, noise(random), random);
        let random_sides: &[usize] = random.pick(&[&[], &[0], &[1], &[0, 1]]);
        for &side in random_sides {
            case.sides[side] = ServeCase::noise(&duo.sides[side], random);
            case.share(side);
        }
        case
    }

    /// What is the same for both functions: the packet, and the edition with it.
    pub const fn shared(&self) -> &ServeCase {
        &self.sides[0]
    }

    /// Gives the other function what both have in common as this one has it.
    const fn share(&mut self, from: usize) {
        let one = self.sides[from];
        let other = &mut self.sides[1 - from];
        other.description.edition = one.description.edition;
        other.packet = one.packet;
        other.reply_length = one.reply_length;
    }
}

/// Puts faults into calls. The lengths of the twelve buffers have their turn.
pub struct DuoFaultMaker {
    faults: [FaultMaker; 2],
    lengths: [[WrongLengths; 6]; 2],
}

impl DuoFaultMaker {
    pub fn new() -> Self {
        Self {
            faults: [FaultMaker::new(), FaultMaker::new()],
            lengths: [const { [const { WrongLengths::new() }; 6] }; 2],
        }
    }

    /// Puts so many faults into a call: of either function, of both in common, or equal numbers. But for lengths, there are
    /// too few calls for each value of a fault to have its turn. Now and then one of 2 to 6 comes beside them, and with equal
    /// numbers more often.
    pub fn put_some(&mut self, number: usize, case: &mut DuoCase, random: &mut Random) {
        for _ in 0..number {
            let side = random.below(2);
            let fault = random.weighted(&[7, 20, 73]);
            match fault {
                0 => case.sides[side].description.function = case.sides[1 - side].description.function,
                1 => self.put_length(side, &mut case.sides[side], random),
                _ => self.faults[side].put_one(false, &mut case.sides[side], random),
            }
            if random.percent(if fault == 0 { 25 } else { 4 }) {
                self.faults[side].put_later(&mut case.sides[side], random);
            }
            case.share(side);
        }
    }

    /// Gives one of a function's six buffers another length.
    fn put_length(&mut self, side: usize, case: &mut ServeCase, random: &mut Random) {
        let buffer = random.below(6);
        let lengths = &mut self.lengths[side][buffer];
        case.lengths[buffer] = if buffer < 4 {
            lengths.draw(random)
        } else {
            lengths.draw_for_marks(random)
        };
    }
}

#[cfg(test)]
mod tests {
    use super::{Duo, DuoCase, DuoFaultMaker, Random, noise};

    #[test]
    fn what_both_functions_have_in_common_stays_so() {
        let (mut duo, mut random, mut faults) = (Duo::spent(), Random::new(1), DuoFaultMaker::new());
        duo.renew(&mut random);
        let mut equal = 0;
        for calls in 0..2000 {
            let mut case = match calls % 5 {
                0 => DuoCase::noise(&duo, &mut random),
                _ => DuoCase::sound(&duo, noise(&mut random), &mut random),
            };
            faults.put_some(calls % 4, &mut case, &mut random);
            let [one, other] = &case.sides;
            assert_eq!(one.description.edition, other.description.edition);
            assert_eq!(one.packet.as_slice(), other.packet.as_slice());
            assert_eq!(one.reply_length, other.reply_length);
            equal += usize::from(one.description.function == other.description.function);
        }
        assert!(equal > 50);
    }
}
