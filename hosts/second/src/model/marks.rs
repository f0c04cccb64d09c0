//! Request 6/13: "Each space gets a third buffer of 4,096 bytes that marks them", the bits that are "cleared by writing
//! 1". What a board may have marked, and what a write does to a marked bit.

use super::merge::enabled;
use super::refusal::Refusal;
use super::space::Space;

/// Refused with 1: "A bit marked both here and as writable makes the board badly described", wherever in the space it
/// lies and whatever the packet asks for.
///
/// All pairs of bytes are gone through, also behind one that has such a bit: without a way out, the loop is fast.
pub(super) fn check(rules: &Space, marks: &Space) -> Result<(), Refusal> {
    let pairs = rules.iter().zip(marks);
    let both = pairs.fold(0, |both, (rule, mark)| both | rule & mark);
    if both == 0 { Ok(()) } else { Err(Refusal::Outside) }
}

/// "A marked bit becomes 0 if the enabled data bit is 1, else stays."
pub(super) fn cleared(old: u32, mark: u32, data: u32, enables: u8) -> u32 {
    let new = old & !(mark & data & enabled(enables));
    debug_assert_eq!(new, cleared_bit_by_bit(old, mark, data, enables));
    new
}

/// The same sentence once more, as it stands: each bit of each byte by itself. Only stated: no answer rests on it.
fn cleared_bit_by_bit(old: u32, mark: u32, data: u32, enables: u8) -> u32 {
    let bit = |word: u32, place: u32| word >> place & 1;
    let left = |place: u32| {
        let byte = place / 8;
        if bit(mark, place) == 1 && enables >> byte & 1 == 1 && bit(data, place) == 1 {
            0
        } else {
            bit(old, place)
        }
    };
    (0..32).map(|place| left(place) << place).sum()
}

#[cfg(test)]
mod tests {
    use super::{check, cleared, cleared_bit_by_bit};

    #[test]
    fn one_bit_that_is_both_is_found_wherever_it_lies() {
        let (mut rules, mut marks) = ([0x0F; 4096], [0xF0; 4096]);
        assert!(check(&rules, &marks).is_ok());
        for place in 0..4096 {
            rules[place] = 0x1F;
            assert!(check(&rules, &marks).is_err());
            (rules[place], marks[place]) = (0x0F, 0xF1);
            assert!(check(&rules, &marks).is_err());
            marks[place] = 0xF0;
        }
        for bit in 0..8 {
            (rules, marks) = ([0; 4096], [0; 4096]);
            rules[0x123] = 1 << bit;
            assert!(check(&rules, &marks).is_ok());
            marks[0x124] = 1 << bit;
            marks[0x123] = !(1 << bit);
            assert!(check(&rules, &marks).is_ok());
            marks[0x123] = 1 << bit;
            assert!(check(&rules, &marks).is_err());
        }
    }

    #[test]
    fn a_marked_bit_becomes_0_by_an_enabled_1_and_by_nothing_else() {
        for place in 0..32 {
            let (bit, byte) = (1 << place, 1 << (place / 8));
            assert_eq!(cleared(u32::MAX, bit, bit, byte), !bit);
            assert_eq!(cleared(u32::MAX, bit, u32::MAX, 0x0F), !bit);
            assert_eq!(cleared(u32::MAX, bit, !bit, byte), u32::MAX);
            assert_eq!(cleared(u32::MAX, bit, bit, 0x0F & !byte), u32::MAX);
            assert_eq!(cleared(u32::MAX, !bit, bit, byte), u32::MAX);
            assert_eq!(cleared(!bit, bit, bit, byte), !bit);
        }
        for enables in 0..16 {
            let (old, mark, data) = (0x5A_C3_96_F0, 0x3C_5A_F0_96, 0xA5_69_C3_FF);
            assert_eq!(
                cleared(old, mark, data, enables),
                cleared_bit_by_bit(old, mark, data, enables)
            );
        }
    }
}
